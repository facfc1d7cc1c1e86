//! Row 1: the offset of the first byte where no sheet begins so.

use crate::common::{refusal, refused, SHEET};
use reference::sheet::read;

#[test]
fn row_1_at_every_byte() {
    for at in 0..SHEET.len() {
        let mut bytes = SHEET.as_bytes().to_vec();
        bytes[at] = b'!';
        assert_eq!(read(&bytes), Err(refusal(1, at)));
    }
    assert_eq!(
        read(format!("{SHEET}\n").as_bytes()),
        Err(refusal(1, SHEET.len()))
    );
}

#[test]
fn row_1_at_every_cut() {
    let job = SHEET.find("(job)\n").unwrap() + "(job)\n".len();
    for at in 0..SHEET.len() {
        let cut = &SHEET[..at];
        let whole = at >= job && cut.ends_with('\n');
        assert_eq!(read(cut.as_bytes()).is_ok(), whole);
        if !whole {
            refused(cut, 1, at);
        }
    }
}

#[test]
fn row_1_at_bytes_that_belong_elsewhere() {
    for (begin, wrong) in [
        ("", "o"),
        ("(", "n"),
        ("(old", ")"),
        ("(old ", ")"),
        ("(old ", "-"),
        ("(old 1234567890", "1"),
        ("(old 0", "0"),
        ("(old 4", " "),
        ("(old 4)", "\r"),
        ("(old 4)\n", "n"),
        ("(old 4)\n(", "o"),
        ("(old 4)\n(", "n"),
        ("(old 4)\n(start 0)\n", "n"),
        ("(old 4)\n(start 0)\n(", "o"),
        ("(old 4)\n(start 0)\n(", "j"),
        ("(old 4)\n(start 0)\n(step 10", ")"),
        ("(old 4)\n(start 0)\n(step 10 (in", "0"),
        ("(old 4)\n(start 0)\n(step 10 (in ", " "),
        ("(old 4)\n(start 0)\n(step 10 (in ", ")"),
        ("(old 4)\n(start 0)\n(step 10 (in 0", "1"),
        ("(old 4)\n(start 0)\n(step 10 (in 0", "\n"),
        ("(old 4)\n(start 0)\n(step 10 (in 0)", ")"),
        ("(old 4)\n(start 0)\n(step 10 (in 0 4294967295", "5"),
        (
            "(old 4)\n(start 0)\n(step 10 (in 0) (out) (read) (write)",
            "0",
        ),
        ("(old 4)\n(start 0)\n(new 4)\n(", "n"),
        ("(old 4)\n(start 0)\n(new 4)\n(", "j"),
        ("(old 4)\n(start 0)\n(new 4)\n(start 0)\n(", "n"),
        ("(old 4)\n(start 0)\n(new 4)\n(start 0)\n(", "d"),
    ] {
        refused(&format!("{begin}{wrong} and more"), 1, begin.len());
        refused(begin, 1, begin.len());
    }
    let job = "(old 4)\n(start 0)\n(new 4)\n(start 0)\n(job)\n";
    refused(&format!("{job}(step"), 1, job.len() + 1);
    refused(&format!("{job}\n"), 1, job.len());
}

//! The mark in a sheet (02, A.4): where it may stand, and where the layout breaks.

use crate::common::SHEET;
use crate::common::{cut, longest, longest_start, of_01, refusal, refused, step, with_line};
use reference::sheet::{read, read_by, text, write, MARK};
use reference::version::Version;

/// Example A with its first and its last step marked, in both routes.
fn marked() -> String {
    let ten = SHEET.replace("(write 0))", "(write 0) (cloth))");
    ten.replace("(write 2))", "(write 2) (cloth))")
}

#[test]
fn the_mark_is_the_last_form() {
    let facts = read(marked().as_bytes()).unwrap();
    let marks = |route: &reference::sheet::Route| -> Vec<bool> {
        route.steps.iter().map(|step| step.cloth).collect()
    };
    assert_eq!(marks(&facts.old), [true, false, true]);
    assert_eq!(marks(&facts.new), [false, true, true]);
    assert_eq!(text(&facts), marked());
    let mut out = [7; 400];
    assert_eq!(write(&facts, &mut out), Ok(SHEET.len() + 4 * MARK.len()));
    assert_eq!(&out[..marked().len()], marked().as_bytes());
    assert_eq!(out[marked().len()], 7);
}

/// It may follow an empty list, and each line's rows are as they were.
#[test]
fn rows_of_a_marked_line() {
    let ok = cut(40, " 0", " 1", "", "");
    assert!(read(with_line(3, &ok).as_bytes()).is_ok());
    refused(&with_line(3, &cut(0, " 0", " 1", "", "")), 2, 3);
    refused(&with_line(4, &cut(20, " 1", " 4", "", "")), 2, 4);
    refused(&with_line(9, &cut(10, "", " 1", "", "")), 3, 9);
    refused(&with_line(10, &cut(20, " 2", " 3", "", "")), 5, 10);
}

#[test]
fn row_1_at_every_byte() {
    let sheet = marked();
    for at in 0..sheet.len() {
        let mut bytes = sheet.as_bytes().to_vec();
        bytes[at] = b'!';
        assert_eq!(read(&bytes), Err(refusal(1, at)));
    }
    let job = sheet.find("(job)\n").unwrap();
    for at in 0..job {
        refused(&sheet[..at], 1, at);
    }
}

/// The layout breaks at the byte after the beginning, or there if it ends.
#[test]
fn bytes_that_belong_elsewhere() {
    let write = "(old 4)\n(start 0)\n(step 10 (in 0) (out 1) (read) (write 0)";
    for (begin, wrong) in [
        // Without its space; another form; two spaces; no form.
        ("", "(cloth))"),
        ("", "c"),
        ("", "\n"),
        (" ", "cloth))"),
        (" ", " (cloth))"),
        (" ", ")"),
        (" ", "0)"),
        (" ", "\n"),
        (" (", "write))"),
        (" (", "Cloth))"),
        (" (", "(cloth)))"),
        (" (", ")"),
        // A letter that is missing, another or one too many.
        (" (c", "oth))"),
        (" (cl", "LOTH))"),
        (" (cl", "th))"),
        (" (clo", ")"),
        (" (clo", "h))"),
        (" (clot", "))"),
        (" (cloth", "s))"),
        (" (cloth", " ))"),
        (" (cloth", " 1))"),
        (" (cloth", "\n"),
        // Twice; not closed; a further form; closed once too often.
        (" (cloth)", " (cloth))"),
        (" (cloth)", "(cloth))"),
        (" (cloth)", "\n"),
        (" (cloth)", " (write 0))"),
        (" (cloth))", ")\n"),
        (" (cloth))", " \n"),
        (")", " (cloth)\n"),
    ] {
        let begin = format!("{write}{begin}");
        refused(&format!("{begin}{wrong} and more"), 1, begin.len());
        refused(&begin, 1, begin.len());
    }
}

/// It stands nowhere else: before the write list, behind another form, in a list.
#[test]
fn other_places() {
    for (begin, wrong) in [
        ("(step 10 (in 0) (out 1) (read) (", "cloth) (write 0))"),
        ("(step 10 (in 0) (out 1) (", "cloth) (read) (write 0))"),
        ("(step 10 (in 0) (", "cloth) (out 1) (read) (write 0))"),
        ("(step 10 (", "cloth) (in 0) (out 1) (read) (write 0))"),
        ("(step ", "(cloth) 10 (in 0) (out 1) (read) (write 0))"),
        ("(step 10 (in 0) (out 1) (read) (write ", "(cloth)))"),
        ("(step 10 (in 0) (out 1) (read) (write 0 ", "(cloth)))"),
        ("(step 10 (in 0 ", "(cloth)) (out 1) (read) (write 0))"),
        ("", " (cloth)\n"),
        ("(", "cloth)\n"),
        ("(new 4", " (cloth))"),
        ("(new 4)\n(start 0 ", "(cloth))"),
        ("(new 4)\n(start 0)\n(job", " (cloth))"),
        ("(new 4)\n(start 0)\n(job)\n(done 10", " (cloth))"),
        ("(new 4)\n(start 0)\n(job)\n(", "cloth)\n"),
    ] {
        let begin = format!("(old 4)\n(start 0)\n{begin}");
        refused(&format!("{begin}{wrong}\n"), 1, begin.len());
    }
    for begin in ["(old 4", "(old 4)", "(old 4)\n(start 0)"] {
        refused(&format!("{begin} (cloth)\n"), 1, begin.len());
    }
}

#[test]
fn the_longest_sheet_that_reads() {
    let start = longest_start();
    assert_eq!(start.len(), 190);
    let sheet = longest([4_294_967_295, 1_000_000_063], &start, MARK);
    assert_eq!(sheet.len(), 20_500);
    let facts = read(sheet.as_bytes()).unwrap();
    assert_eq!(text(&facts), sheet);
    let mut out = vec![7; 20_500];
    let short = write(&facts, &mut out[1..]);
    assert_eq!(short, Err(refusal(15, 20_500)));
    assert_eq!(write(&facts, &mut out), Ok(20_500));
    assert_eq!(out, sheet.as_bytes());
}

/// 01's version has no mark: the layout breaks at its space.
#[test]
fn by_01s_version() {
    let by_01 = |sheet: &str| read_by(sheet.as_bytes(), &Version::OF_01);
    let first = "(old 4)\n(step 10 (in 0) (out 1) (read) (write 0)";
    assert_eq!(by_01(&of_01(&marked())), Err(refusal(1, first.len())));
    assert_eq!(by_01(&format!("{first} ")), Err(refusal(1, first.len())));
    assert_eq!(by_01(first), Err(refusal(1, first.len())));
    // Of the last step alone, the sheet up to its line and the line's own bytes.
    let line = cut(30, " 2", " 3", " 0 1", " 2");
    let example = of_01(SHEET);
    let before: usize = example.split_inclusive('\n').take(7).map(str::len).sum();
    let space = line.find(MARK).unwrap();
    let with_last = |line: &str| of_01(&with_line(10, line));
    let last = with_last(&line);
    assert_eq!(by_01(&last), Err(refusal(1, before + space)));
    assert!(read(with_line(10, &line).as_bytes()).is_ok());
    // An earlier fault of the layout goes first, one of the lines doesn't.
    let long = with_last(&line.replace("30", "300000"));
    assert_eq!(by_01(&long), Err(refusal(1, before + 11)));
    let nameless = last.replace("(step 20", "(step 0");
    assert_eq!(by_01(&nameless), Err(refusal(1, before + space - 2)));
    let unmarked = with_last(&step(30, " 2", " 3", " 0 1", " 2"));
    assert_eq!(unmarked, example);
    assert!(by_01(&unmarked).is_ok());
}

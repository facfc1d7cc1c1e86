//! Reading by 01's version of the layout: names to 65,535, numbers of one to five
//! digits and no start lines, worked by hand.

use crate::common::{longest, longest_start, of_01, refusal, sheet, with_line, with_lines};
use crate::common::{NEW, OLD, SHEET};
use crate::names::{with_number, NAMES, NUMBERS};
use reference::sheet::{read, read_by, Sheet};
use reference::version::Version;

/// The numbers that 01's layout has too: not those of start lines.
const OF_01: usize = 12;

fn by_01(text: &str) -> Result<Sheet, reference::refusal::Refusal> {
    read_by(text.as_bytes(), &Version::OF_01)
}

/// 01's version reads this without its start lines, and the present one with them;
/// the facts are the same but for the starts, which 01's version leaves empty.
#[track_caller]
fn reads(text: &str) {
    let facts = by_01(&of_01(text));
    assert!(facts.is_ok(), "{facts:?}, of sheet\n{text}");
    let mut present = read(text.as_bytes()).unwrap();
    present.old.start.clear();
    present.new.start.clear();
    assert_eq!(facts, Ok(present));
}

/// 01's version refuses this by this row.
#[track_caller]
fn refused(text: &str, number: u32, second: usize) {
    let answer = by_01(text);
    assert_eq!(answer, Err(refusal(number, second)), "of sheet\n{text}");
}

/// Example A as it stands in 01 with this number at the `#` of a line, the line
/// there, and the number's offset.
fn with_number_in_01((line, form): (usize, &str), number: &str) -> (String, usize, usize) {
    let (text, offset) = with_number((line, form), number);
    let lines = SHEET.lines().take(line - 1);
    let starts = lines.filter(|line| *line == "(start 0)").count();
    (of_01(&text), line - starts, offset - 10 * starts)
}

#[test]
fn example_a() {
    reads(SHEET);
    assert_eq!(of_01(SHEET).len(), 312);
}

/// No sheet reads by both versions. The present one takes `(st` for a start line, and
/// then no step; 01's takes it for a step, and then no start line.
#[test]
fn start_lines() {
    assert_eq!(read(of_01(SHEET).as_bytes()), Err(refusal(1, 11)));
    refused(SHEET, 1, 11);
    // Of the new route alone, whose head has 8 bytes.
    let old = of_01(OLD);
    refused(&(old.clone() + NEW), 1, old.len() + 8 + 3);
    let without = OLD.to_string() + &of_01(NEW);
    let broken = OLD.len() + 8 + 3;
    assert_eq!(read(without.as_bytes()), Err(refusal(1, broken)));
    // Where it would follow a step, the job line or a done line.
    for (before, at) in [
        (old.clone(), 3),
        (old.clone() + &of_01(NEW), 3),
        (old.clone() + &of_01(NEW) + "(job)\n", 1),
    ] {
        refused(&format!("{before}(start 0)\n"), 1, before.len() + at);
    }
    // By both versions an empty route ends early, each at its own place.
    refused("(old 4)\n", 1, 8);
    assert_eq!(read(b"(old 4)\n"), Err(refusal(1, 8)));
    refused("(old 4)\n(new 4)\n(job)\n", 4, 2);
    assert_eq!(read(b"(old 4)\n(new 4)\n(job)\n"), Err(refusal(1, 9)));
}

#[test]
fn done_names() {
    for name in [1, 9_999, 10_000, 65_534, 65_535] {
        let text = sheet(OLD, NEW, &[10, name]);
        reads(&text);
        assert_eq!(by_01(&of_01(&text)).unwrap().done, [10, name]);
    }
    for name in [0, 65_536, 65_546, 99_999] {
        refused(&of_01(&sheet(OLD, NEW, &[10, name])), 2, 11);
    }
    // A and two lines of 6 and 10 bytes; the sixth digit stands 11 bytes on.
    let before = of_01(OLD).len() + of_01(NEW).len() + 6 + 10;
    for name in [100_000, 4_294_967_295, 4_294_967_296, 10_000_000_000] {
        refused(&of_01(&sheet(OLD, NEW, &[10, name])), 1, before + 11);
    }
}

/// Five digits keep the layout, and only names up to 65,535 are in range.
#[test]
fn five_digits() {
    for form in &NUMBERS[..OF_01] {
        for number in ["65536", "99999"] {
            let (text, line, _) = with_number_in_01(*form, number);
            refused(&text, 2, line);
        }
    }
    for form in &NUMBERS[..NAMES] {
        reads(&with_number(*form, "65535").0);
    }
    for form in &NUMBERS[NAMES..OF_01] {
        let (text, line, _) = with_number_in_01(*form, "65535");
        refused(&text, 2, line);
    }
}

/// A sixth digit breaks the layout there, of a name and of any other number.
#[test]
fn six_digits() {
    for number in [
        "100000",
        "655350",
        "4294967295",
        "4294967296",
        "12345678901",
    ] {
        for form in &NUMBERS[..OF_01] {
            let (text, _, offset) = with_number_in_01(*form, number);
            refused(&text, 1, offset + 5);
            refused(&text[..offset + 6], 1, offset + 5);
            refused(&text[..offset + 5], 1, offset + 5);
        }
    }
}

#[test]
fn a_leading_zero() {
    for number in ["00", "010", "00001", "065535", "0123456789"] {
        for form in &NUMBERS[..OF_01] {
            let (text, _, offset) = with_number_in_01(*form, number);
            refused(&text, 1, offset + 1);
        }
    }
}

/// A name over 65,535 is a fault of its line, a sixth digit one of the whole sheet.
#[test]
fn rows_in_turn() {
    let long = "(step 65536 (in 0) (out 1) (read) (write 0))\n";
    let changed = |changes: &[(usize, &str)]| of_01(&with_lines(changes));
    let both = changed(&[(3, long), (14, "(done 100000)\n")]);
    // The last line begins 10 bytes before the end of A.
    refused(&both, 1, 312 - 10 + long.len() - 42 + 11);
    refused(&changed(&[(3, long), (6, "(new 65)\n")]), 2, 2);
    refused(&changed(&[(1, "(old 65)\n"), (3, long)]), 2, 1);
    // On one line 2 goes before 3 and 5, and 4 before 2.
    let empty = "(step 65536 (in) (out 1) (read) (write))\n";
    refused(&of_01(&with_line(4, empty)), 2, 3);
    refused(&changed(&[(3, long), (4, long)]), 2, 2);
    let done = |last| of_01(&sheet(OLD, NEW, &[&[10; 64][..], &[last]].concat()));
    refused(&done(65_536), 4, 74);
    refused(&done(100_000), 1, done(1).len() - 9 + 11);
}

#[test]
fn the_longest_sheet() {
    let start = longest_start();
    let text = longest([65_535, 10_063], &start, "");
    assert_eq!(of_01(&text).len(), 18_136);
    reads(&text);
    // The first name stands behind `(old 64)`, LF and `(step `.
    let long = longest([4_294_967_295, 1_000_000_063], "", "");
    assert_eq!(long.len(), 19_096);
    refused(&long, 1, 9 + 6 + 5);
}

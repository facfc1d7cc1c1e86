//! Sheets read by both versions of the layout, 01's and the present one.

use crate::drive::compare_script;
use reference::script::writing::{read, read_by_01};
use reference::sheet::form;

const SHEET: &str = include_str!("../../../examples/letters/A.sheet");

/// The sheet without its start lines, which 01's version doesn't have.
pub fn of_01(sheet: &str) -> String {
    let lines = sheet.split_inclusive('\n');
    lines.filter(|line| !line.starts_with("(start")).collect()
}

/// The sheet read by both versions, by 01's with and without start lines.
fn by_both(sheet: String) -> String {
    let by_01 = [&sheet, &of_01(&sheet)].map(|sheet| read_by_01(sheet.as_bytes()));
    read(sheet.as_bytes()) + &by_01.concat()
}

/// At the limits of both versions, and with leading zeros.
const NUMBERS: [&str; 11] = [
    "0",
    "00001",
    "065535",
    "65535",
    "65536",
    "99999",
    "100000",
    "4294967295",
    "4294967296",
    "9999999999",
    "10000000000",
];

/// Example A with each of these in the place of one of its numbers, of each in turn.
pub fn with_other_numbers() -> impl Iterator<Item = [String; NUMBERS.len()]> {
    let digit = |at: usize| SHEET.as_bytes()[at].is_ascii_digit();
    let begins = (1..SHEET.len()).filter(move |&at| digit(at) && !digit(at - 1));
    begins.map(|begin| {
        let (before, rest) = SHEET.split_at(begin);
        let after = rest.trim_start_matches(|c: char| c.is_ascii_digit());
        NUMBERS.map(|number| [before, number, after].concat())
    })
}

#[test]
fn numbers_at_their_limits() {
    for sheets in with_other_numbers() {
        let answers = compare_script("versions", &sheets.map(by_both).concat());
        assert_eq!(answers.len(), 3 * NUMBERS.len());
    }
}

/// Texts that stand where a step's bracket closes.
const ENDS: [&str; 9] = [
    " (cloth))",
    " (cloth) (cloth))",
    " (cloth)",
    " (cloth ))",
    " (cloth 1))",
    "  (cloth))",
    "(cloth))",
    ") (cloth)",
    " (write))",
];

/// Example A with each of these in the place of one form's end, of each in turn.
pub fn with_other_ends() -> impl Iterator<Item = [String; ENDS.len()]> {
    let ends = SHEET.match_indices(')').map(|(at, _)| at);
    ends.map(|end| {
        let (before, after) = (&SHEET[..end], &SHEET[end + 1..]);
        ENDS.map(|mark| [before, mark, after].concat())
    })
}

/// Marks stand in every place; the present version alone takes one, at a step's end.
#[test]
fn marks_in_every_place() {
    for sheets in with_other_ends() {
        let answers = compare_script("marks", &sheets.map(by_both).concat());
        assert_eq!(answers.len(), 3 * ENDS.len());
    }
}

/// The longest sheet of each version. A script has no room for two of them.
#[test]
fn the_longest_sheets() {
    let lists = "(in 56 57 58 59 60 61 62 63) (out 48 49 50 51 52 53 54 55) \
                 (read 24 25 26 27 28 29 30 31) (write 16 17 18 19 20 21 22 23)";
    let start = form("start", &(0..64).collect::<Vec<u64>>()) + "\n";
    let of_01 = (65_535_u32, "", "", 18_136);
    let present = (u32::MAX, start.as_str(), " (cloth)", 20_500);
    for (last, start, mark, length) in [of_01, present] {
        let step = |name| format!("(step {name} {lists}{mark})\n");
        let steps: String = (last - 63..=last).map(step).collect();
        let done = format!("(done {last})\n").repeat(64);
        let route = format!("64)\n{start}{steps}");
        let sheet = format!("(old {route}(new {route}(job)\n{done}");
        assert_eq!(sheet.len(), length);
        for script in [read(sheet.as_bytes()), read_by_01(sheet.as_bytes())] {
            assert_eq!(compare_script("longest", &script).len(), 1);
        }
    }
}

//! Example A of 01 with its start lines (02, A.5), and small ways to change and list
//! sheets.

use reference::print::listing_of;
use reference::refusal::Refusal;
use reference::sheet::{form, read, Sheet, MARK};

macro_rules! old {
    () => {
        "\
(old 4)
(start 0)
(step 10 (in 0) (out 1) (read) (write 0))
(step 20 (in 1) (out 2) (read) (write 1))
(step 30 (in 2) (out 3) (read 0 1) (write 2))
"
    };
}

macro_rules! new {
    () => {
        "\
(new 4)
(start 0)
(step 20 (in 0) (out 1) (read) (write 1))
(step 10 (in 1) (out 2) (read) (write 0))
(step 30 (in 2) (out 3) (read 0 1) (write 2))
"
    };
}

/// The old and the new route of example A, and its sheet.
pub const OLD: &str = old!();
pub const NEW: &str = new!();
pub const SHEET: &str = concat!(old!(), new!(), "(job)\n(done 10)\n(done 20)\n(done 30)\n");

/// The sheet of these routes and done names.
pub fn sheet(old: &str, new: &str, done: &[u64]) -> String {
    let lines: String = done.iter().map(|name| format!("(done {name})\n")).collect();
    format!("{old}{new}(job)\n{lines}")
}

/// The facts of that sheet.
pub fn facts(old: &str, new: &str, done: &[u64]) -> Sheet {
    read(sheet(old, new, done).as_bytes()).unwrap()
}

/// The sheet of these routes and done names has this listing.
#[track_caller]
pub fn lists(old: &str, new: &str, done: &[u64], listing: &str) {
    assert_eq!(listing_of(sheet(old, new, done).as_bytes()), listing);
}

/// Both routes with these places and steps, and this list after their heads, given
/// with the spaces before its entries.
pub fn both(places: u64, start: &str, steps: &str) -> (String, String) {
    let head = |word| format!("({word} {places})\n(start{start})\n{steps}");
    (head("old"), head("new"))
}

/// A chain of steps 1, 2, ... in the order given: step s writes variable
/// (s - 1) modulo 32, and the k-th one goes from place k to place k + 1.
pub fn chain(word: &str, names: &[u64]) -> String {
    let mut text = format!("({word} {})\n(start 0)\n", names.len() + 1);
    for (place, name) in names.iter().enumerate() {
        let (next, variable) = (place + 1, (name - 1) % 32);
        text += &format!("(step {name} (in {place}) (out {next}) (read) (write {variable}))\n");
    }
    text
}

/// Two routes and a done list: the new chain is the old one turned round, and
/// all is done.
pub fn turned_round(count: u64) -> (String, String, Vec<u64>) {
    let names: Vec<u64> = (1..=count).collect();
    let reversed: Vec<u64> = (1..=count).rev().collect();
    (chain("old", &names), chain("new", &reversed), names)
}

/// The longest start line, with its end.
pub fn longest_start() -> String {
    let all: Vec<u64> = (0..64).collect();
    form("start", &all) + "\n"
}

/// All lists, routes and the done list as long as they may be: the last old and
/// new names are these, the old one is done over and over, each head is followed by
/// this start line, if any, and each step ends with this text.
pub fn longest([old, new]: [u64; 2], start: &str, end: &str) -> String {
    let lists = "(in 56 57 58 59 60 61 62 63) (out 48 49 50 51 52 53 54 55) \
                 (read 24 25 26 27 28 29 30 31) (write 16 17 18 19 20 21 22 23)";
    let route = |word: &str, last: u64| {
        let names = last - 63..=last;
        let steps = names.map(|name| format!("(step {name} {lists}{end})\n"));
        format!("({word} 64)\n{start}{}", steps.collect::<String>())
    };
    sheet(&route("old", old), &route("new", new), &[old; 64])
}

pub fn refusal(number: u32, second: usize) -> Refusal {
    Refusal { number, second }
}

/// The sheet as 01's version has it, without start lines.
pub fn of_01(sheet: &str) -> String {
    let lines = sheet.split_inclusive('\n');
    lines.filter(|line| !line.starts_with("(start")).collect()
}

/// The sheet with one line, from 1, replaced by this text.
pub fn with_line(line: usize, text: &str) -> String {
    with_lines(&[(line, text)])
}

/// The sheet with these lines replaced.
pub fn with_lines(changes: &[(usize, &str)]) -> String {
    let mut lines: Vec<&str> = SHEET.split_inclusive('\n').collect();
    for (line, text) in changes {
        lines[line - 1] = text;
    }
    lines.concat()
}

/// A step line; each list is given with the spaces before its entries.
pub fn step(name: u64, ins: &str, outs: &str, reads: &str, writes: &str) -> String {
    format!("(step {name} (in{ins}) (out{outs}) (read{reads}) (write{writes}))\n")
}

/// A step line that is marked.
pub fn cut(name: u64, ins: &str, outs: &str, reads: &str, writes: &str) -> String {
    let line = step(name, ins, outs, reads, writes);
    line.replace("))\n", &format!("){MARK})\n"))
}

/// The listing of this sheet is a refusal by this row.
#[track_caller]
pub fn refused(text: &str, number: u32, second: usize) {
    let listing = format!("(refused {number} {second})\n");
    assert_eq!(listing_of(text.as_bytes()), listing, "of sheet\n{text}");
}

/// The sheet with this line replaced is refused by this row at that line.
#[track_caller]
pub fn line_refused(line: usize, text: &str, number: u32) {
    refused(&with_line(line, text), number, line);
}

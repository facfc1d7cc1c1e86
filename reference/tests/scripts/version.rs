//! Operation 23, reading by 01's version: its answers by hand, and what random
//! scripts meet of it.

use crate::common::{counted, numbers_of, refused, BY_VALUE};
use crate::random::{arguments, operations};
use reference::script::answers;
use std::collections::BTreeMap;

const PRESENT: u64 = 6;
const BY_01: u64 = 23;

/// The numbers of an answer after the first two: two routes, and the done list.
const FACTS: usize = 2 * (3 + BY_VALUE) + 65;

/// Where the starts stand in an answer.
const STARTS: [usize; 2] = [3, 3 + 3 + BY_VALUE];

const SHEET: &str = include_str!("../../../examples/letters/A.sheet");

/// A sheet as an argument.
fn bytes(sheet: &str) -> String {
    counted(&numbers_of(sheet))
}

/// The sheet without its start lines.
fn of_01(sheet: &str) -> String {
    let lines = sheet.split_inclusive('\n');
    lines.filter(|line| !line.starts_with("(start")).collect()
}

/// The only answer of this operation to a sheet.
fn read(operation: u64, sheet: &str) -> Vec<u64> {
    let mut answers = answers(&format!("{operation} {}", bytes(sheet)));
    answers.remove(0).1
}

/// 01's version reads this without its start lines, and the present one with them:
/// the answers are the same, but for the starts, which are 0 by 01's.
#[track_caller]
fn reads(sheet: &str) {
    let (mut present, by_01) = (read(PRESENT, sheet), read(BY_01, &of_01(sheet)));
    assert_eq!(present[..2], [0, 0]);
    assert_eq!(STARTS.map(|at| present[at]), [1, 1]);
    STARTS.iter().for_each(|&at| present[at] = 0);
    assert_eq!(by_01, present, "of sheet\n{sheet}");
    assert_eq!(by_01.len(), 2 + FACTS);
}

#[test]
fn sheets_at_01s_limits() {
    reads(SHEET);
    reads(&SHEET.replace("(done 30)", "(done 65535)"));
    reads(&SHEET.replace("(step 30 ", "(step 65535 "));
    refused(BY_01, &bytes(SHEET), [1, 11], FACTS);
    refused(PRESENT, &bytes(&of_01(SHEET)), [1, 11], FACTS);
    for (from, to, refusal) in [
        ("(done 30)", "(done 65536)", [2, 12]),
        ("(done 30)", "(done 99999)", [2, 12]),
        ("(done 30)", "(done 100000)", [1, 302 + 11]),
        ("(step 10 (in 0)", "(step 65536 (in 0)", [2, 2]),
        ("(step 10 (in 0)", "(step 100000 (in 0)", [1, 8 + 11]),
        ("(step 10 (in 0)", "(step 10 (in 99999)", [2, 2]),
        ("(step 10 (in 0)", "(step 10 (in 100000)", [1, 8 + 18]),
        ("(old 4)", "(old 100000)", [1, 10]),
    ] {
        let sheet = of_01(SHEET).replacen(from, to, 1);
        refused(BY_01, &bytes(&sheet), refusal, FACTS);
    }
    refused(BY_01, "0", [1, 0], FACTS);
}

/// The sheet of an operation.
fn sheet(line: &str) -> String {
    let bytes = arguments(line).many();
    bytes.iter().map(|&byte| byte as u8 as char).collect()
}

/// The digits from here on.
fn digits(text: &str) -> &str {
    let end = text.find(|c: char| !c.is_ascii_digit());
    &text[..end.unwrap_or(text.len())]
}

/// Whether a number's sixth digit stands at this offset.
fn is_sixth_digit(sheet: &str, offset: usize) -> bool {
    let number = offset.checked_sub(5).and_then(|at| sheet.get(at..));
    number.is_some_and(|number| digits(number).len() > 5)
}

/// Whether this line has a name over 65,535.
fn has_long_name(sheet: &str, line: usize) -> bool {
    let line = sheet.lines().nth(line - 1).unwrap();
    let rest = line.strip_prefix("(step ").or(line.strip_prefix("(done "));
    rest.and_then(|rest| digits(rest).parse::<u64>().ok()) > Some(65_535)
}

/// Whether it is a start line that breaks the layout at this offset.
fn is_start_line(sheet: &str, offset: usize) -> bool {
    let line = offset.checked_sub(3).and_then(|at| sheet.get(at..));
    line.is_some_and(|line| line.starts_with("(start"))
}

/// How 01's version answered.
fn kind(sheet: &str, numbers: &[u64]) -> String {
    let second = numbers[1] as usize;
    match numbers[0] {
        0 => "reads".into(),
        1 if is_sixth_digit(sheet, second) => "1, a sixth digit".into(),
        1 if is_start_line(sheet, second) => "1, a start line".into(),
        2 if has_long_name(sheet, second) => "2, a name over 65,535".into(),
        row => format!("{row}, other"),
    }
}

#[test]
fn scripts_pass_01s_limits() {
    let mut counts: BTreeMap<String, usize> = BTreeMap::new();
    for (line, operation, numbers) in operations() {
        if operation == BY_01 {
            let kind = kind(&sheet(line), numbers);
            *counts.entry(kind).or_default() += 1;
        }
    }
    println!("{counts:?}");
    for (kind, least) in [
        ("reads", 100),
        ("1, a sixth digit", 50),
        ("1, a start line", 10),
        ("2, a name over 65,535", 20),
        ("1, other", 5),
        ("2, other", 5),
    ] {
        assert!(counts.get(kind) >= Some(&least), "{kind}");
    }
}

/// The sheet with a start line behind each head.
fn with_starts(sheet: &str) -> String {
    let lines = sheet.split_inclusive('\n').map(|line| {
        let is_head = line.starts_with("(old ") || line.starts_with("(new ");
        format!("{line}{}", if is_head { "(start 0)\n" } else { "" })
    });
    lines.collect()
}

/// What 23 reads, 6 reads with start lines, and with the same answer but for these.
#[test]
fn what_01s_version_reads_the_present_one_reads_with_start_lines() {
    let mut count = 0;
    for (line, operation, numbers) in operations() {
        if operation == BY_01 && numbers[0] == 0 {
            assert_eq!(STARTS.map(|at| numbers[at]), [0, 0], "of {line}");
            reads(&with_starts(&sheet(line)));
            assert_eq!(read(BY_01, &sheet(line)), numbers, "of {line}");
            count += 1;
        }
    }
    println!("{count} read");
    assert!(count > 100);
}

/// The greatest number of digits in a row.
fn longest_number(sheet: &str) -> usize {
    let numbers = sheet.split(|c: char| !c.is_ascii_digit());
    numbers.map(str::len).max().unwrap_or(0)
}

#[test]
fn both_versions_meet_numbers_of_all_lengths() {
    let mut counts: BTreeMap<(u64, usize), [usize; 2]> = BTreeMap::new();
    for (line, operation, numbers) in operations() {
        if matches!(operation, PRESENT | BY_01) {
            let length = longest_number(&sheet(line));
            let count = counts.entry((operation, length)).or_default();
            count[usize::from(numbers[0] != 0)] += 1;
        }
    }
    println!("by operation and digits, read and refused: {counts:?}");
    for operation in [PRESENT, BY_01] {
        for length in [5, 6, 10, 11] {
            let all: usize = counts[&(operation, length)].iter().sum();
            assert!(all >= 3, "{operation}, {length}");
        }
    }
}

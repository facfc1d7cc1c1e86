//! 01's version of the layout beside the present one: on any sheet its answer follows
//! from the present one's to the sheet with start lines, and from where 01's limits are
//! first passed.

use crate::for_each_sheet;
use reference::random::{cloth::clear, damage::damage, names::shorten};
use reference::refusal::{refuse, Refusal};
use reference::sheet::{self, read, read_by, Sheet};
use reference::version::Version;
use std::collections::BTreeMap;

/// The line that is put behind each head: the first place, which every route has.
const START: &str = "(start 0)\n";

/// The offset of the first digit with five digits before it.
fn sixth_digit(bytes: &[u8]) -> Option<usize> {
    let six = |part: &[u8]| part.iter().all(u8::is_ascii_digit);
    bytes.windows(6).position(six).map(|at| at + 5)
}

/// The first line of the sheet with a name over 65,535.
fn long_name(bytes: &[u8]) -> Option<usize> {
    let text = String::from_utf8_lossy(bytes);
    let is_long = |line: &str| {
        let rest = line.strip_prefix("(step ").or(line.strip_prefix("(done "));
        let digits = rest.and_then(|rest| rest.split([' ', ')']).next());
        let name = digits.and_then(|digits| digits.parse::<u64>().ok());
        name > Some(65_535)
    };
    text.lines().position(is_long).map(|at| at + 1)
}

/// The offset of the first space behind a write list, where a mark begins.
fn space_of_a_mark(bytes: &[u8]) -> Option<usize> {
    let lists = bytes.windows(6).enumerate().filter(|(_, w)| w == b"(write");
    let end = |at: usize| Some(at + 1 + bytes[at..].iter().position(|&byte| byte == b')')?);
    let mut ends = lists.filter_map(|(at, _)| end(at));
    ends.find(|&end| bytes.get(end) == Some(&b' '))
}

/// The sheet with a start line behind each of its heads, or what stands there for one.
fn with_starts(bytes: &[u8]) -> Vec<u8> {
    let mut sheet = Vec::new();
    let (mut old, mut new) = (false, false);
    for (at, line) in bytes.split_inclusive(|&byte| byte == b'\n').enumerate() {
        sheet.extend(line);
        let is_old = at == 0 && line.starts_with(b"(old ");
        let is_new = old && !new && line.starts_with(b"(new ");
        if (is_old || is_new) && line.ends_with(b"\n") {
            sheet.extend(START.bytes());
        }
        (old, new) = (old || is_old, new || is_new);
    }
    sheet
}

/// What the present version answers to the sheet with start lines; a refusal is that
/// of the same byte or line without them.
fn present(bytes: &[u8]) -> Result<Sheet, Refusal> {
    let sheet = with_starts(bytes);
    let is_start = |line: &&[u8]| line.starts_with(START.as_bytes());
    let starts_in = |part: &[u8]| {
        let lines = part.split_inclusive(|&byte| byte == b'\n');
        lines
            .filter(is_start)
            .count()
            .min((sheet.len() - bytes.len()) / START.len())
    };
    let lines_before = |line: usize| -> usize {
        let lines = sheet.split_inclusive(|&byte| byte == b'\n');
        lines.take(line - 1).map(<[u8]>::len).sum()
    };
    match read(&sheet) {
        Ok(mut facts) => {
            facts.old.start.clear();
            facts.new.start.clear();
            Ok(facts)
        }
        Err(Refusal { number: 1, second }) => {
            let starts = starts_in(&sheet[..second]);
            refuse(1, second - starts * START.len())
        }
        Err(Refusal { number, second }) => {
            let starts = starts_in(&sheet[..lines_before(second)]);
            refuse(number, second - starts)
        }
    }
}

/// What 01's version answers. An earlier fault goes first; of two on a line row 4.
fn expected(bytes: &[u8]) -> Result<Sheet, Refusal> {
    let present = present(bytes);
    let (number, second) = match &present {
        Ok(_) => (0, usize::MAX),
        Err(refusal) => (refusal.number, refusal.second),
    };
    let broken = if number == 1 { second } else { usize::MAX };
    let too_much = [sixth_digit(bytes), space_of_a_mark(bytes)];
    let first = too_much.into_iter().flatten().min();
    if let Some(offset) = first.filter(|&offset| offset < broken) {
        return refuse(1, offset);
    }
    let goes_first = |line: usize| line < second || line == second && number != 4;
    match long_name(bytes).filter(|&line| number != 1 && goes_first(line)) {
        Some(line) => refuse(2, line),
        None => present,
    }
}

fn number(answer: &Result<Sheet, Refusal>) -> u32 {
    answer.as_ref().map_or_else(|refusal| refusal.number, |_| 0)
}

#[test]
fn what_01s_version_reads_the_present_one_reads_with_start_lines() {
    let mut counts: BTreeMap<[u32; 2], usize> = BTreeMap::new();
    for_each_sheet("01's version", &mut |facts, dice| {
        let mut facts = facts.clone();
        if dice.chance(70) {
            shorten(&mut facts, dice);
        }
        if dice.chance(70) {
            clear(&mut facts);
        }
        let whole = sheet::text_by(&facts, &Version::OF_01).into_bytes();
        for bytes in [damage(&whole, dice), whole] {
            let answer = read_by(&bytes, &Version::OF_01);
            let text = String::from_utf8_lossy(&bytes);
            assert_eq!(answer, expected(&bytes), "of sheet\n{text}");
            let present = present(&bytes);
            if answer.is_ok() {
                assert_eq!(answer, present, "of sheet\n{text}");
            }
            *counts.entry([&answer, &present].map(number)).or_default() += 1;
        }
    });
    println!("by 01's row and the present one's, 0 for read: {counts:?}");
    // Both read, or both refuse by one row; else 01's limits refuse.
    let alike = (0..=5).map(|row| [row, row]);
    for pair in alike.chain([[1, 0], [1, 2], [2, 0]]) {
        assert!(counts.get(&pair) >= Some(&5), "{pair:?}");
    }
}

/// No sheet reads by both versions: each breaks the other's at its first start line, or
/// where that is missing.
#[test]
fn no_sheet_reads_by_both_versions() {
    for_each_sheet("both versions", &mut |facts, dice| {
        let mut facts = facts.clone();
        shorten(&mut facts, dice);
        clear(&mut facts);
        for version in [Version::OF_01, Version::PRESENT] {
            let text = sheet::text_by(&facts, &version);
            let head = text.find('\n').unwrap() + 1;
            let other = [&Version::OF_01, &Version::PRESENT][usize::from(!version.start)];
            let broken = read_by(text.as_bytes(), other).err();
            let at = Refusal {
                number: 1,
                second: head + 3,
            };
            assert_eq!(broken, Some(at), "of sheet\n{text}");
        }
    });
}

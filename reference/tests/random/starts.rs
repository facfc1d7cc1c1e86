//! Starts (02, A.5): how often random sheets meet them, right and wrong, and what they
//! change.

use crate::kinds::Kinds;
use crate::kinds_of_starts::add;
use crate::{for_each_sheet, judged};
use reference::net;
use reference::random::damage::damage;
use reference::refusal::Refusal;
use reference::sheet::{self, form, read, Route, Sheet};

#[test]
fn sheets_meet_starts() {
    let mut kinds = Kinds::default();
    for_each_sheet("starts", &mut |facts, _| add(&mut kinds, facts));
    kinds.finish(5);
    assert_eq!(kinds.0.len(), 2 * 8 + 1 + 3 + 11 + 3 + 3 + 6);
}

/// The start after a step.
fn after(route: &Route, name: u64) -> Vec<u64> {
    let step = route.step(name).unwrap();
    let marking = net::fire(&net::start(route), step).unwrap();
    marking.into_iter().collect()
}

/// What moves straight also moves so with its first step done before it began, to the
/// same places.
#[test]
fn begun_a_step_later() {
    let mut later = 0;
    for_each_sheet("later", &mut |facts, _| {
        let Ok(moved) = judged(facts) else { return };
        if !moved.straight || facts.done.is_empty() {
            return;
        }
        let mut begun = facts.clone();
        let first = begun.done.remove(0);
        begun.old.start = after(&facts.old, first);
        begun.new.start = after(&facts.new, first);
        let other = judged(&begun).unwrap();
        assert!(other.straight);
        assert_eq!(other.marking, moved.marking);
        later += 1;
    });
    println!("{later} begun a step later");
    assert!(later > 1_000);
}

/// Where nothing is done the new route stands at its start, whatever the steps are.
#[test]
fn nothing_done() {
    let mut moved = 0;
    for_each_sheet("nothing done", &mut |facts, _| {
        let begun = Sheet {
            done: vec![],
            ..facts.clone()
        };
        if let Ok(answer) = judged(&begun) {
            assert_eq!(answer.marking, net::start(&facts.new));
            moved += 1;
        }
    });
    assert!(moved > 3_000);
}

/// A start line of a sheet: its line, its place count and its entries.
struct Start {
    line: usize,
    places: u64,
    entries: Vec<u64>,
}

/// The start lines that stand right behind a head.
fn starts(text: &str) -> Vec<Start> {
    let lines: Vec<&str> = text.lines().collect();
    let numbers = |line: &str| -> Vec<u64> {
        let words = line.split(|c: char| !c.is_ascii_digit());
        words.filter_map(|word| word.parse().ok()).collect()
    };
    let is_head = |line: &str| line.starts_with("(old ") || line.starts_with("(new ");
    let pairs = lines.windows(2).enumerate();
    let behind = pairs.filter(|(_, two)| is_head(two[0]) && two[1].starts_with("(start"));
    behind
        .map(|(at, two)| Start {
            line: at + 2,
            places: numbers(two[0]).first().copied().unwrap_or(0),
            entries: numbers(two[1]),
        })
        .collect()
}

/// The sheet with a right start in the place of this one.
fn mended(text: &str, line: usize) -> String {
    let mut lines: Vec<&str> = text.split_inclusive('\n').collect();
    lines[line - 1] = "(start 0)\n";
    lines.concat()
}

/// Rows 2 and 3 at a start line, and what they were told for.
fn add_rows(kinds: &mut Kinds, text: &str, refusal: &Refusal) {
    let all = starts(text);
    let Some(start) = all.iter().find(|start| start.line == refusal.second) else {
        return;
    };
    let word = if start.line == 2 { "old" } else { "new" };
    let row = refusal.number;
    let mut add = |met, kind: &str| kinds.add(met, &format!("{row} at the {word} start: {kind}"));
    let Start {
        places, entries, ..
    } = start;
    let falls = entries.windows(2).any(|two| two[1] < two[0]);
    let repeats = entries.windows(2).any(|two| two[1] == two[0]);
    let last = entries.iter().max().copied().unwrap_or(0);
    match row {
        2 => {
            add(last == *places, "N");
            add(last == places + 1, "N + 1");
            add((64..1 << 32).contains(&last), "64 and above");
            add(last >= 1 << 32, "over 32 bits");
            add(falls || repeats, "row 3 too");
        }
        3 => {
            add(falls, "falls");
            add(repeats, "repeats");
            add(entries.len() == 2, "two entries");
            add(entries.len() > 8, "over 8 entries");
        }
        _ => return,
    }
    let later = read(mended(text, start.line).as_bytes()).err();
    let next = |later: Refusal| later.number > 1 && later.second > start.line;
    add(later.is_some_and(next), "a later line's row too");
}

/// Where the layout breaks in a start line, or where one is missing or too many.
fn add_broken(kinds: &mut Kinds, bytes: &[u8], offset: usize) {
    let begin = bytes[..offset].iter().rposition(|&byte| byte == b'\n');
    let line = &bytes[begin.map_or(0, |at| at + 1)..];
    let taken = offset - (bytes.len() - line.len());
    let before = bytes[..bytes.len() - line.len()].split(|&byte| byte == b'\n');
    let before = before.rev().nth(1).unwrap_or(b"");
    let is_head = before.starts_with(b"(old ") || before.starts_with(b"(new ");
    let mut add = |met, kind: &str| kinds.add(met, &format!("1: {kind}"));
    if is_head {
        let kind = match taken {
            0..=6 => format!("after {taken} bytes of a start line"),
            _ => "in a start line's entries or end".to_string(),
        };
        add(true, &kind);
        add(line.starts_with(b"(step "), "no start line, a step");
        let head = line.starts_with(b"(new ") || line.starts_with(b"(job");
        add(head, "no start line, the next head");
    } else if line.starts_with(b"(start") {
        add(before.is_empty(), "a start line before its head");
        add(before.starts_with(b"(start"), "a second start line");
        add(before.starts_with(b"(step"), "a start line behind a step");
        let job = before.starts_with(b"(job") || before.starts_with(b"(done");
        add(job, "a start line in the job part");
    }
}

#[test]
fn damage_meets_starts() {
    let mut kinds = Kinds::default();
    for_each_sheet("damaged starts", &mut |facts, dice| {
        let text = sheet::text(facts);
        for _ in 0..4 {
            let bytes = damage(text.as_bytes(), dice);
            let damaged = String::from_utf8_lossy(&bytes);
            match read(&bytes) {
                Err(refusal) if refusal.number == 1 => {
                    add_broken(&mut kinds, &bytes, refusal.second)
                }
                Err(refusal) => add_rows(&mut kinds, &damaged, &refusal),
                Ok(read) => add_read(&mut kinds, facts, &read),
            }
        }
    });
    kinds.finish(5);
    // Rows 2 and 3 of both; 7 bytes, entries and two ways to miss it; other places;
    // what reads.
    assert_eq!(kinds.0.len(), 2 * (6 + 5) + 7 + 3 + 4 + 5);
}

/// Starts that were changed and read.
fn add_read(kinds: &mut Kinds, facts: &Sheet, read: &Sheet) {
    let (old, new) = (&read.old.start, &read.new.start);
    let changed = *old != facts.old.start || *new != facts.new.start;
    kinds.add(changed, "reads: another start");
    kinds.add(changed && old.is_empty(), "reads: no old start");
    kinds.add(changed && new.is_empty(), "reads: no new start");
    kinds.add(
        changed && old.len().max(new.len()) > 8,
        "reads: over 8 places",
    );
    let exchanged = *old == facts.new.start && *new == facts.old.start;
    kinds.add(changed && exchanged, "reads: the starts exchanged");
}

/// A start line is written as it was read, and its line is the one behind its head.
#[test]
fn start_lines_are_written() {
    for_each_sheet("start lines", &mut |facts, _| {
        let text = sheet::text(facts);
        let lines: Vec<&str> = text.lines().collect();
        for (head, route) in [
            (facts.old_line(), &facts.old),
            (facts.new_line(), &facts.new),
        ] {
            assert_eq!(lines[head], form("start", &route.start));
            assert!(route.start.is_sorted());
        }
        assert_eq!(lines[facts.job_line() - 1], "(job)");
    });
}

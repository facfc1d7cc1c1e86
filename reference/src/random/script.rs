//! Random scripts: some dozen operations, on right and wrong arguments.

use super::dice::Dice;
use super::records::{add_past_len, Facts};
use super::{cloth, damage, jobs, mistype, names, orders};
use crate::judge::WORK;
use crate::print::listing_of;
use crate::record::Record;
use crate::script::arguments::MOST_SLICE;
use crate::script::writing::{self, bytes, fill};
use crate::sheet::{self, Sheet};
use crate::version::Version;

/// Each script is shorter.
pub const MOST_BYTES: usize = 60_000;

/// The longest slice that is lent.
pub(super) const LONGEST: usize = MOST_SLICE as usize;

/// What a script's ending may add to its operations.
pub(super) const ENDING: usize = 2_000;

/// Each operation, and how often it is drawn.
const OPERATIONS: [(u64, usize); 17] = [
    (1, 5),
    (2, 5),
    (3, 6),
    (4, 12),
    (5, 12),
    (6, 6),
    (7, 3),
    (8, 5),
    (9, 10),
    (10, 8),
    (12, 5),
    (13, 5),
    (14, 9),
    (15, 9),
    (16, 6),
    (18, 5),
    (23, 6),
];

/// How an operation begins that is none, or that has an argument past its limit.
pub const PAST_A_LIMIT: [&str; 49] = [
    "0",
    "11",
    "17",
    "19",
    "1 18446744073709551616 1",
    "1 1 4294967296 1 2",
    "1 1 1 18446744073709551616 2",
    "1 1 1 1 2 0 4294967296",
    "1 1 1 1 2 0 0 2",
    "1 1 1 1 2 0 0 18446744073709551615",
    "2 1 18446744073709551616",
    "2 1 1 18446744073709551616",
    "2 4 1 65 65",
    "2 2 1 1 1 1 1 2 0 0 2",
    "2 1 1 0 0 1 18446744073709551616",
    "12 1 18446744073709551616",
    "12 4 1 101",
    "12 2 1 1 1 1 2 0 0 2",
    "12 4 1 0 4 1 0 101",
    "2 1 1 0 0 1 1 0 0 101",
    "2 1 1 0 0 1 1 0 0 1 4294967296",
    "7 21001",
    "7 1 256",
    "8 1 1 0 0 1 1 0 0 0 21001 0",
    "8 1 1 0 0 1 1 0 0 0 1 256",
    "8 1 1 0 0 1 1 0 0 0 0 256",
    "16 0 101 0 0",
    "16 0 0 0 101",
    "20 18446744073709551616",
    "20 0 9",
    "20 1 1 4294967296",
    "20 1 1 1 4294967296",
    "20 1 1 1 1 18446744073709551616",
    "20 1 1 1 1 1 18446744073709551616",
    "20 1 1 1 1 1 65 65",
    "21 4294967296",
    "21 1 4294967296",
    "21 1 1 18446744073709551616",
    "21 1 1 1 65 65",
    "21 1 2 1 1 1 1 1 2 0 0 2",
    "22 4294967296",
    "22 1 4294967296",
    "22 1 2 101",
    "22 1 2 1 4294967296",
    "22 1 2 0 21001",
    "22 1 2 0 1 256",
    "23 21001",
    "23 1 256",
    "29",
];

/// A random script. Few end in the middle of an operation, have a strange word
/// or an argument past its limit.
pub fn script(dice: &mut Dice) -> String {
    let mut text = String::new();
    for _ in 0..dice.from_to(8, 16) {
        let line = operation(dice);
        if text.len() + line.len() + ENDING < MOST_BYTES {
            text += &line;
        }
    }
    ended(text, &PAST_A_LIMIT, dice)
}

/// The script as it ends: few in the middle of an operation, or with one of these
/// that is past a limit.
pub(super) fn ended(text: String, limits: &[&str], dice: &mut Dice) -> String {
    match dice.below(40) {
        0 => cut(&text, dice),
        1 => strange(&text, dice),
        2 => past_a_limit(&text, limits, dice),
        3 => spaced(&text),
        _ => text,
    }
}

/// The number of an operation, drawn by its weight.
fn number(dice: &mut Dice) -> u64 {
    let all: usize = OPERATIONS.iter().map(|(_, weight)| weight).sum();
    let mut roll = dice.below(all);
    for (number, weight) in OPERATIONS {
        if roll < weight {
            return number;
        }
        roll -= weight;
    }
    1
}

/// One operation and its arguments.
pub(super) fn operation(dice: &mut Dice) -> String {
    let number = number(dice);
    let arguments = match number {
        1 => fire(dice),
        6 | 7 | 9 | 10 | 16 | 23 => of_sheet(number, dice),
        _ => of_records(number, dice),
    };
    writing::operation(number, &arguments)
}

/// Tokens and a step that can fire, or nearly so, or any masks.
fn fire(dice: &mut Dice) -> Vec<String> {
    let job = jobs::job(dice);
    let steps = &job.old.steps;
    let mut record = Record::of(&steps[dice.below(steps.len())]);
    if dice.chance(30) {
        let any = |dice: &mut Dice| dice.roll() & dice.roll() & dice.roll();
        record.ins = any(dice);
        record.outs = any(dice);
    }
    if dice.chance(10) {
        record.ins = [0, u64::MAX, 1 << 63][dice.below(3)];
        record.outs = [0, u64::MAX, 1 << 63][dice.below(3)];
    }
    let more = dice.roll() & !record.outs;
    let tokens = match dice.below(10) {
        0..=5 => record.ins | more,
        6 => record.ins,
        7 => record.ins | record.outs,
        8 => more,
        _ => [0, u64::MAX, 1 << 63, dice.roll()][dice.below(4)],
    };
    vec![tokens.to_string(), writing::record(&record)]
}

/// The arguments of an operation on records, by value or lent.
fn of_records(number: u64, dice: &mut Dice) -> Vec<String> {
    let job = jobs::job(dice);
    let mut facts = if dice.chance(28) {
        spoiled(&job, dice)
    } else {
        Facts::of(&job)
    };
    if number < 10 && dice.chance(20) {
        add_past_len(&mut facts.old, dice);
        add_past_len(&mut facts.new, dice);
    }
    let mut arguments = vec![facts.text(number > 10)];
    match number {
        4 | 14 => arguments.push(bytes(&orders::order(&job, dice))),
        5 | 15 => arguments.push(work(dice)),
        8 | 18 => arguments.push(out(sheet::text(&job).len(), dice)),
        _ => {}
    }
    arguments
}

/// The job's facts with one to three things wrong, or at their limits.
fn spoiled(job: &Sheet, dice: &mut Dice) -> Facts {
    let mut facts = Facts::of(job);
    for _ in 0..dice.from_to(1, 3) {
        facts.spoil(dice);
    }
    facts
}

/// The arguments of an operation on a sheet.
fn of_sheet(number: u64, dice: &mut Dice) -> Vec<String> {
    let mut job = jobs::job(dice);
    if matches!(number, 9 | 10) && dice.chance(5) {
        mistype::job(&mut job, dice);
    }
    if matches!(number, 6 | 23) && dice.chance(50) {
        names::shorten(&mut job, dice);
    }
    if number == 23 && dice.chance(75) {
        cloth::clear(&mut job);
    }
    let version = version(number, dice);
    let mut text = sheet::text_by(&job, &version).into_bytes();
    match dice.below(100) {
        0..=19 => text = damage::damage(&text, dice),
        20..=34 => {
            let spoiled = spoiled(&job, dice).sheet();
            text = sheet::text_by(&spoiled, &version).into_bytes();
        }
        _ => {}
    }
    let mut arguments = vec![bytes(&text)];
    match number {
        9 => {
            arguments.push(work(dice));
            arguments.push(out(listing_of(&text).len(), dice));
        }
        10 => arguments.push(bytes(&orders::order(&job, dice))),
        16 => arguments.push(room(&job, dice)),
        _ => {}
    }
    arguments
}

/// The version that the operation reads by; few sheets are of the other.
fn version(number: u64, dice: &mut Dice) -> Version {
    if (number == 23) != dice.chance(5) {
        Version::OF_01
    } else {
        Version::PRESENT
    }
}

/// A work slice, seldom too short.
pub(super) fn work(dice: &mut Dice) -> String {
    let lengths = [0, 1, WORK - 1, WORK - 1, WORK + 1, LONGEST];
    let length = if dice.chance(85) {
        WORK
    } else {
        lengths[dice.below(lengths.len())]
    };
    fill(length, some_byte(dice))
}

/// An out slice of about the length needed, or long enough.
fn out(needed: usize, dice: &mut Dice) -> String {
    let near = [needed, needed, needed - 1, needed + 1, 0, needed / 2];
    let length = if dice.chance(50) {
        near[dice.below(near.len())]
    } else {
        needed + dice.below(40)
    };
    fill(length.min(LONGEST), some_byte(dice))
}

pub(super) fn some_byte(dice: &mut Dice) -> u8 {
    [0, 1, 9, 10, 255][dice.below(5)]
}

/// Lengths of the three lent lists, each at times too short.
fn room(job: &Sheet, dice: &mut Dice) -> String {
    let needed = [job.old.steps.len(), job.new.steps.len(), job.done.len()];
    let lengths = needed.map(|needed| match dice.below(12) {
        0 => needed.saturating_sub(1),
        1 => dice.below(needed + 1),
        2..=5 => needed,
        6..=9 => needed + dice.below(4),
        _ => 100,
    });
    lengths.map(|length| length.min(100).to_string()).join(" ")
}

/// Ends after any word.
fn cut(text: &str, dice: &mut Dice) -> String {
    let words: Vec<&str> = text.split_whitespace().collect();
    let at = dice.below(words.len() + 1);
    words[..at].join(" ")
}

/// A word that is no number, or one that is no operation's, among the others.
fn strange(text: &str, dice: &mut Dice) -> String {
    let mut words: Vec<&str> = text.split_whitespace().collect();
    let at = dice.below(words.len() + 1);
    let strange = ["x", "-1", "+1", "\t", ";", "18446744073709551616"];
    words.insert(at, strange[dice.below(strange.len())]);
    words.join(" ")
}

/// An operation with an argument past its limit, and a right one after it.
fn past_a_limit(text: &str, limits: &[&str], dice: &mut Dice) -> String {
    let zeros = " 0".repeat(600);
    let begin = limits[dice.below(limits.len())];
    format!("{text}{begin}{zeros}\n1 1 1 1 2 0 0 0\n")
}

/// The same with more spaces and LFs between, and none at the end.
fn spaced(text: &str) -> String {
    text.trim_end().replace('\n', " \n\n  ")
}

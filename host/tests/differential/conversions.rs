//! Sheets between editions: random scripts; and sheets by hand at the limits of both
//! versions, up, down, and the way that the second line tells.

use crate::drive::compare_script;
use crate::scripts::compare_at_once;
use crate::versions::{of_01, with_other_ends, with_other_numbers};
use reference::random::convert::script;
use reference::script::writing::{convert, fill};

const SHEET: &str = include_str!("../../../examples/letters/A.sheet");

const UP: u64 = 26;
const DOWN: u64 = 27;
const EITHER: u64 = 28;

/// More than example A takes, with what is put into it.
const ROOM: usize = 400;

#[test]
fn random_conversions() {
    let met = compare_at_once(["conversions-1", "conversions-2"], 800, script);
    let operations = [UP, DOWN, EITHER].map(|number| number as u32);
    met.operations.finish(
        "operations of conversion scripts",
        "none",
        1_000,
        &operations,
    );
    met.numbers.finish(
        "answers to conversion scripts",
        "good",
        100,
        &[0, 1, 2, 3, 4, 5, 6, 7, 15, 22],
    );
}

fn given(way: u64, sheet: &str, room: usize) -> String {
    convert(way, sheet.as_bytes(), fill(room, 9))
}

/// Up without its start lines, down with them, and the way that each of both goes.
fn every_way(sheet: &str, room: usize) -> String {
    let lower = of_01(sheet);
    [
        given(UP, &lower, room),
        given(DOWN, sheet, room),
        given(EITHER, &lower, room),
        given(EITHER, sheet, room),
    ]
    .concat()
}

#[test]
fn numbers_at_their_limits() {
    for sheets in with_other_numbers() {
        let script = sheets.map(|sheet| every_way(&sheet, ROOM)).concat();
        assert_eq!(compare_script("limits-there-and-back", &script).len(), 44);
    }
}

#[test]
fn marks_in_every_place() {
    for sheets in with_other_ends() {
        let script = sheets.map(|sheet| every_way(&sheet, ROOM)).concat();
        assert_eq!(compare_script("marks-there-and-back", &script).len(), 36);
    }
}

/// An out slice a byte too short for one of both texts, of the right length, and longer.
#[test]
fn out_slices() {
    let (lower, upper) = (of_01(SHEET).len(), SHEET.len());
    for needed in [lower, upper] {
        let rooms = [0, needed - 1, needed, needed + 1, 21_000];
        let script = rooms.map(|room| every_way(SHEET, room)).concat();
        assert_eq!(compare_script("out-slices", &script).len(), 20);
    }
}

/// The sheet that isn't of the way's version, and both cut off at each byte up to the
/// first step: whichever way the second line tells.
#[test]
fn other_versions_and_beginnings() {
    let lower = of_01(SHEET);
    let mut script = given(UP, SHEET, ROOM) + &given(DOWN, &lower, ROOM);
    for end in 0..40 {
        for sheet in [&lower, SHEET] {
            for way in [UP, DOWN, EITHER] {
                script += &given(way, &sheet[..end], ROOM);
            }
        }
    }
    assert_eq!(compare_script("beginnings", &script).len(), 242);
}

/// 64 steps with eight entries in each list, from eight places to the next eight: from
/// the first eight on, where it begins, and the later ones all to the last eight.
fn long_sheet() -> String {
    let eight = |group: u64| {
        let places = (8 * group..8 * group + 8).map(|place| format!(" {place}"));
        places.collect::<String>()
    };
    let step = |at: u64| {
        let (name, from) = (65_472 + at, at.min(6));
        let (ins, outs, variables) = (eight(from), eight(from + 1), eight(3));
        format!("(step {name} (in{ins}) (out{outs}) (read{variables}) (write{variables}))\n")
    };
    let steps: String = (0..64).map(step).collect();
    let route = format!("64)\n(start{})\n{steps}", eight(0));
    let done = "(done 65535)\n".repeat(64);
    format!("(old {route}(new {route}(job)\n{done}")
}

/// A sheet nearly as long as 01's longest, with just enough room and a byte too little.
#[test]
fn long_sheets() {
    let upper = long_sheet();
    let lower = of_01(&upper);
    assert_eq!((lower.len(), upper.len()), (18_112, 18_160));
    for (way, sheet, needed) in [(UP, &lower, upper.len()), (DOWN, &upper, lower.len())] {
        for (room, number) in [(needed, 0), (needed - 1, 15)] {
            let answers = compare_script("long-sheets", &given(way, sheet, room));
            assert_eq!(answers[0].1[0], number);
        }
    }
}

//! Scripts written by hand: counts, masks, names and lengths that no sheet can say.

use crate::drive::{compare_script, drive};
use reference::judge::WORK;
use reference::print::listing_of;
use reference::random::records::Facts;
use reference::random::script::PAST_A_LIMIT;
use reference::random::{convert, lookup};
use reference::record::Record;
use reference::script::answer;
use reference::script::arguments::MOST_SLICE;
use reference::script::numbers::MOST_BYTES;
use reference::script::writing::{bytes, fill, operation};
use reference::sheet;
use std::fs;
use std::path::Path;

const SHEET: &str = include_str!("../../../examples/letters/A.sheet");

/// The longest slice that is lent.
const LONGEST: usize = MOST_SLICE as usize;

/// Example A as records.
fn facts_a() -> Facts {
    Facts::of(&sheet::read(SHEET.as_bytes()).expect("example A reads"))
}

/// Every operation over these records, by value and as lent lists, with work
/// slices of 8,191 and 8,192 bytes and out slices up to one byte too long.
fn every_operation(facts: &Facts) -> String {
    let mut script = String::new();
    let needed = sheet::text(&facts.sheet()).len().min(LONGEST);
    for (more, records) in [(0, facts.text(false)), (10, facts.text(true))] {
        let mut add = |number: u64, last: &[String]| {
            script += &operation(number + more, &[&[records.clone()], last].concat());
        };
        add(2, &[]);
        add(3, &[]);
        if more == 0 {
            add(25, &[]);
        }
        for order in [&[2, 1, 3][..], &[1, 2, 3], &[0], &[255; 70], &[]] {
            add(4, &[bytes(order)]);
        }
        for length in [0, WORK - 1, WORK, WORK + 1] {
            add(5, &[fill(length, 9)]);
        }
        for length in [0, needed.saturating_sub(1), needed, needed + 1] {
            add(8, &[fill(length.min(LONGEST), 9)]);
        }
    }
    script
}

/// Compares every operation on each of these records, and again with the routes
/// exchanged.
#[track_caller]
fn compare_each(name: &str, all: &[Facts]) {
    for facts in all {
        compare_script(name, &every_operation(facts));
        let mut exchanged = facts.clone();
        std::mem::swap(&mut exchanged.old, &mut exchanged.new);
        compare_script(name, &every_operation(&exchanged));
    }
}

/// So many records under names of their own, each from place 0 to place 1.
fn many(count: u32) -> Vec<Record> {
    let record = |name| Record {
        name,
        ins: 1,
        outs: 2,
        ..Record::default()
    };
    (1..=count).map(record).collect()
}

/// Example A with these records as its old route, on two places.
fn with_records(list: Vec<Record>, len: u64) -> Facts {
    let mut facts = facts_a();
    facts.old.places = 2;
    facts.old.len = len;
    facts.old.list = list;
    facts
}

#[test]
fn numbers_of_records() {
    let lengths = [0, 1, 63, 64, 65, 66, 100];
    let all = lengths.map(|count| with_records(many(count), count.into()));
    compare_each("lengths", &all);
}

/// A route by value says that it has more records than it holds, or fewer.
#[test]
fn lengths_that_are_not_those_of_the_records() {
    let lens = [0, 1, 3, 4, 64, 65, 66, 100, 256, 1 << 32, 1 << 63, u64::MAX];
    for count in [0, 3, 64] {
        compare_each("len", &lens.map(|len| with_records(many(count), len)));
    }
}

/// At their limits, and such as end with the 8 or 16 bits of 10, 20 or 30.
const NAMES: [u32; 10] = [
    0,
    1,
    65_535,
    65_536,
    266,
    65_546,
    65_556,
    131_102,
    u32::MAX - 1,
    u32::MAX,
];

#[test]
fn names_at_their_limits() {
    for at in 0..3 {
        let all = NAMES.map(|name| {
            let mut facts = facts_a();
            facts.old.list[at].name = name;
            facts.done[at] = name.into();
            facts
        });
        compare_each("names", &all);
        let in_both = NAMES.map(|name| {
            let mut facts = facts_a();
            let records = facts.old.list.iter_mut().chain(&mut facts.new.list);
            for record in records.filter(|record| u64::from(record.name) == facts.done[at]) {
                record.name = name;
            }
            facts.done[at] = name.into();
            facts
        });
        compare_each("names-in-both", &in_both);
    }
}

#[test]
fn done_lists_at_their_limits() {
    for length in [0, 1, 63, 64, 65, 66, 100] {
        let all = [0, 10, 65_535, 65_536, 65_546, u32::MAX.into()].map(|name| {
            let mut facts = facts_a();
            facts.done.resize(length, name);
            facts
        });
        compare_each("done", &all);
    }
}

#[test]
fn place_counts() {
    let all = [0, 1, 3, 4, 5, 63, 64, 65, u32::MAX].map(|places| {
        let mut facts = facts_a();
        facts.old.places = places;
        facts
    });
    compare_each("places", &all);
}

/// Places at and above the place count, all below it, and none.
#[test]
fn starts() {
    for places in [1, 4, 32, 63, 64] {
        let below = u64::MAX >> (64 - places);
        let masks = [
            0,
            1,
            2,
            9,
            below,
            1 << (places - 1),
            1 << (places % 64),
            1 << 32,
            1 << 63,
            u64::MAX,
        ];
        let all = masks.map(|start| {
            let mut facts = facts_a();
            facts.old.places = places;
            facts.old.start = start;
            facts
        });
        compare_each("starts", &all);
    }
}

/// Example A as two rings, 30 putting the token back on the first place, gone round
/// from each place.
#[test]
fn rings() {
    for [old, new] in [[1, 1], [2, 1], [4, 2], [1, 4], [3, 5], [7, 7]] {
        let rings = [
            &[10, 20, 30][..],
            &[20, 30, 10, 20],
            &[30, 10, 20, 30, 10, 20, 30],
            &[],
        ];
        let all = rings.map(|done| {
            let mut facts = facts_a();
            (facts.old.start, facts.new.start) = (old, new);
            for route in [&mut facts.old, &mut facts.new] {
                route.places = 3;
                route.list[2].outs = 1;
            }
            facts.done = done.to_vec();
            facts
        });
        compare_each("rings", &all);
    }
}

/// Each mask of each record empty, full, of 8 and of 9 entries.
#[test]
fn masks() {
    for at in 0..3 {
        for mask in [0, 0xff, 0x1ff, 1 << 31, 1 << 63, u64::MAX] {
            let mut all = [facts_a(), facts_a(), facts_a(), facts_a()];
            all[0].old.list[at].ins = mask;
            all[1].old.list[at].outs = mask;
            all[2].old.list[at].reads = mask as u32;
            all[3].old.list[at].writes = mask as u32;
            compare_each("masks", &all);
        }
    }
}

/// Example A with these names marked in the old route, in the new one or in both;
/// without writes they are kept by their mark alone, and what only they wrote is read no
/// more.
fn with_marks(names: &[u32], [old, new]: [bool; 2], writes: bool) -> Facts {
    let mut facts = facts_a();
    for (route, mark) in [(&mut facts.old, old), (&mut facts.new, new)] {
        let records = route.list.iter_mut();
        for record in records.filter(|record| names.contains(&record.name)) {
            record.cloth = mark;
            record.writes *= u32::from(writes);
        }
        let written = route.list.iter().fold(0, |all, record| all | record.writes);
        route
            .list
            .iter_mut()
            .for_each(|record| record.reads &= written);
    }
    facts
}

#[test]
fn marks() {
    for names in [&[10][..], &[20], &[30], &[10, 20], &[20, 30], &[10, 20, 30]] {
        for writes in [true, false] {
            let routes = [[true, false], [false, true], [true, true]];
            let all = routes.map(|marked| with_marks(names, marked, writes));
            compare_each("marks", &all);
        }
    }
}

/// What each record of example A reads: its own writing, each other's, and a variable that
/// none writes, beside others or alone. 31 is written by a record past `len`, which is one
/// of a lent list.
#[test]
fn readings() {
    for at in 0..3 {
        for reads in [0, 1, 2, 4, 3, 7, 8, 9, 15, 1 << 31, 1 << 31 | 7] {
            let mut all = [facts_a(), facts_a()];
            all.iter_mut()
                .for_each(|facts| facts.old.list[at].reads = reads);
            all[1].new.list[at].reads = reads;
            let past = Record {
                name: 40,
                writes: 1 << 31,
                ..all[0].old.list[at]
            };
            all[0].old.list.push(past);
            compare_each("readings", &all);
        }
    }
}

#[test]
fn a_record_with_every_number_at_its_largest() {
    let largest = Record {
        name: u32::MAX,
        ins: u64::MAX,
        outs: u64::MAX,
        reads: u32::MAX,
        writes: u32::MAX,
        cloth: true,
    };
    let mut facts = with_records(vec![largest; 64], u64::MAX);
    facts.old.places = u32::MAX;
    facts.old.start = u64::MAX;
    facts.done = vec![u32::MAX.into(); 100];
    compare_each("largest", &[facts]);
}

/// Lists one record or name too short, of the right length, and longer.
#[test]
fn reading_into_lent_lists() {
    let shorter = SHEET.replace("(done 30)\n", "");
    let marked = SHEET.replace("(write 0))", "(write 0) (cloth))");
    let started = SHEET.replacen("(start 0)", "(start 0 3)", 1);
    for sheet in [SHEET, "", "(old 4)\n", &shorter, &marked, &started] {
        let mut script = String::new();
        for old in [0, 2, 3, 4, 100] {
            for new in [0, 2, 3, 100] {
                for done in [0, 1, 2, 3, 4, 64, 100] {
                    let rooms = [old, new, done].map(|room| room.to_string());
                    let sheet = bytes(sheet.as_bytes());
                    script += &operation(16, &[&[sheet], &rooms[..]].concat());
                }
            }
        }
        // The program takes no more bytes at once.
        for part in script.lines().collect::<Vec<_>>().chunks(40) {
            compare_script("rooms", &part.join("\n"));
        }
    }
}

/// Work and out slices one byte too short, of the right length, and longer.
#[test]
fn printing_into_lent_slices() {
    let sheet = SHEET.as_bytes();
    let needed = listing_of(sheet).len();
    let mut script = String::new();
    for work in [0, WORK - 1, WORK, WORK + 1, LONGEST] {
        for out in [0, needed - 1, needed, needed + 1] {
            script += &operation(9, &[bytes(sheet), fill(work, 9), fill(out, 9)]);
        }
    }
    compare_script("print", &script);
}

/// What stands past the first 65,536 bytes isn't taken: there the last of these
/// operations, or the last number, is cut off.
#[test]
fn a_script_past_its_limit() {
    let find = "24 2 10 1000 0 1000001\n";
    for before in 0..find.len() {
        let script = " ".repeat(before) + &find.repeat(MOST_BYTES / find.len() + 2);
        let answers = compare_script("limit", &script);
        assert!(answers.len() <= MOST_BYTES / find.len() + 1);
    }
}

/// An argument past its limit ends the script.
#[test]
fn arguments_past_their_limits() {
    let fire = "1 1 10 1 2 0 1 0\n";
    let of_kinds = lookup::PAST_A_LIMIT.iter().chain(&convert::PAST_A_LIMIT);
    for begin in PAST_A_LIMIT.iter().chain(of_kinds) {
        let script = format!("{fire}{begin}{}\n{fire}", " 0".repeat(600));
        assert_eq!(compare_script("past-limits", &script).len(), 1);
    }
}

/// As many numbers as 65,536 bytes hold: the job parts of empty sheets.
#[test]
fn as_many_numbers_as_there_can_be() {
    let answers = compare_script("numbers", &"7 0 ".repeat(MOST_BYTES / 4));
    assert_eq!(answers.len(), MOST_BYTES / 4);
}

/// The script that the crate is run on by `rt`, and what it must write.
#[test]
fn the_script_of_the_crate() {
    let crate_folder = Path::new(env!("CARGO_MANIFEST_DIR")).join("../crates/drive");
    let file = |name| fs::read_to_string(crate_folder.join(name)).expect(name);
    let (script, written) = (file("stdin"), file("stdout"));
    assert_eq!(answer(&script), written);
    assert_eq!(drive("crate", &script), written);
}

//! Sheets between 01's layout and the present one (02, A.6): up and down as C functions,
//! on sheets of both layouts, right and wrong, with out slices of all lengths.

use crate::compare::{compare_way, Way};
use crate::guarded::random_bytes;
use crate::seed::for_each_case;
use crate::tally::Tally;
use host::Printed;
use reference::convert;
use reference::random::convert::sheets;
use reference::random::damage::damage;
use reference::random::dice::Dice;
use reference::sheet::form;
use reference::version::Version;
use std::collections::BTreeMap;

pub const DOWN: Way = Way {
    engine: host::down,
    second_program: convert::down,
};
pub const UP: Way = Way {
    engine: host::up,
    second_program: convert::up,
};

/// More than any sheet needs.
pub const FAR: usize = 40_000;

/// What down and up answer, 15 too; 0 where they write.
const OF_DOWN: [u32; 10] = [0, 1, 2, 3, 4, 5, 6, 7, 15, 22];
const OF_UP: [u32; 9] = [0, 1, 2, 3, 4, 5, 6, 7, 15];

/// A sheet, right or wrong, of 01's layout or of the present one, and whether it is to go
/// up; few go the wrong way.
fn some_sheet(dice: &mut Dice) -> (Vec<u8>, bool) {
    let of_01 = dice.chance(50);
    let version = [Version::PRESENT, Version::OF_01][usize::from(of_01)];
    (sheets::bytes(&version, dice), of_01 != dice.chance(5))
}

/// The bytes that a sheet needs the way it goes, or that it has if it is refused.
fn needed(way: Way, sheet: &[u8]) -> usize {
    (way.second_program)(sheet, &mut [0; FAR]).unwrap_or(sheet.len())
}

/// What the answers were: by number, and by the line for those whose line tells more.
#[derive(Default)]
struct Met {
    tally: Tally,
    lines: BTreeMap<String, usize>,
}

impl Met {
    fn add(&mut self, sheet: &[u8], answer: Printed) {
        self.tally.add(answer.number);
        if matches!(answer.number, 6 | 7 | 22) {
            let kind = format!("{} at {}", answer.number, line_kind(sheet, answer.second));
            *self.lines.entry(kind).or_default() += 1;
        }
    }

    /// So many kinds of lines must have been met, each so many times.
    fn finish(&self, all: &str, numbers: &[u32], kinds: usize) {
        self.tally.finish(all, "written", 20, numbers);
        println!("{all}, by line {:?}", self.lines);
        assert_eq!(self.lines.len(), kinds, "{all}");
        assert!(self.lines.values().all(|&count| count >= 20), "{all}");
    }
}

/// A line of a sheet by its word, the part that it is in, and its mark.
fn line_kind(sheet: &[u8], line: u64) -> String {
    let text = String::from_utf8_lossy(sheet);
    let lines: Vec<&str> = text.lines().take(line as usize).collect();
    let last = lines.last().expect("no such line");
    let begins = |head: &&str| lines.iter().any(|line| line.starts_with(head));
    let part = ["(job)", "(new ", "(old "].into_iter().find(begins);
    let word = last.split([' ', ')']).next().unwrap_or_default();
    let mark = ["", ", marked"][usize::from(last.ends_with(" (cloth))"))];
    format!("{word} of {}{mark}", part.unwrap_or_default())
}

#[test]
fn sheets_between_layouts() {
    let mut met = [Met::default(), Met::default()];
    let mut written = [0; 5];
    for_each_case("between layouts", 20_000, &mut |dice| {
        let (bytes, up) = some_sheet(dice);
        let way = [DOWN, UP][usize::from(up)];
        let needed = needed(way, &bytes);
        let lengths = [
            needed,
            needed + dice.from_to(1, 40),
            dice.from_to(FAR / 2, FAR),
            needed.saturating_sub(1),
            0,
        ];
        let room = dice.below(lengths.len());
        let out = random_bytes(lengths[room], dice);
        let (answer, _) = compare_way(way, &bytes, &out, dice);
        met[usize::from(up)].add(&bytes, answer);
        written[room] += usize::from(answer.written > 0);
    });
    println!(
        "written: exact room {}, some more {}, far more {}",
        written[0], written[1], written[2]
    );
    assert!(written[..3].iter().all(|&count| count > 500));
    assert_eq!(written[3..], [0, 0]);
    // 6 and 7 in each route; 22 at each start, at steps without a mark and with one, and at a done line
    met[0].finish("sheets down", &OF_DOWN, 11);
    met[1].finish("sheets up", &OF_UP, 4);
}

/// Every out slice from none to some longer than needed, for sheets that go.
#[test]
fn every_length_of_the_out_slice() {
    let mut tallies = [Tally::default(), Tally::default()];
    for_each_case("out lengths", 300, &mut |dice| {
        let (bytes, up) = some_sheet(dice);
        let way = [DOWN, UP][usize::from(up)];
        let goes = (way.second_program)(&bytes, &mut [0; FAR]);
        for length in 0..goes.map_or(0, |needed| needed + 9) {
            let out = random_bytes(length, dice);
            let (answer, _) = compare_way(way, &bytes, &out, dice);
            tallies[usize::from(up)].add(answer.number);
        }
    });
    tallies[0].finish("out slices down", "written", 20, &[0, 15]);
    tallies[1].finish("out slices up", "written", 20, &[0, 15]);
}

/// What is written goes back to the bytes given, both ways.
#[test]
fn there_and_back() {
    let mut counts = [0, 0];
    for_each_case("there and back", 10_000, &mut |dice| {
        let (bytes, up) = some_sheet(dice);
        let (there, back) = [(DOWN, UP), (UP, DOWN)][usize::from(up)];
        let mut other = vec![7; FAR];
        let answer = (there.engine)(&bytes, &mut other);
        if answer.number == 0 {
            other.truncate(answer.written as usize);
            let out = random_bytes(bytes.len(), dice);
            let (answer, first) = compare_way(back, &other, &out, dice);
            assert_eq!((answer.number, answer.second), (0, 0));
            assert_eq!(first, bytes);
            counts[usize::from(up)] += 1;
        }
    });
    println!("down and up, up and down: {counts:?}");
    assert!(counts.iter().all(|&count| count > 1_000));
}

/// A sheet cut off at each of its bytes, with another byte there, and damaged, both ways.
#[test]
fn every_byte_of_a_sheet() {
    let mut tallies = [Tally::default(), Tally::default()];
    let mut compare = |bytes: &[u8], dice: &mut Dice| {
        for (way, tally) in [DOWN, UP].into_iter().zip(&mut tallies) {
            let out = random_bytes(bytes.len() + 400, dice);
            tally.add(compare_way(way, bytes, &out, dice).0.number);
        }
    };
    for_each_case("bytes between layouts", 30, &mut |dice| {
        let (bytes, _) = some_sheet(dice);
        for at in 0..bytes.len() {
            compare(&bytes[..at], dice);
            let mut other = bytes.clone();
            other[at] = dice.below(256) as u8;
            compare(&other, dice);
            compare(&damage(&bytes, dice), dice);
        }
    });
    tallies[0].finish("damaged sheets down", "written", 20, &[0, 1]);
    tallies[1].finish("damaged sheets up", "written", 20, &[0, 1]);
}

/// The longest sheet of 01's layout that goes up: all lists have eight entries, and the
/// first steps take the places that no other has.
fn longest() -> String {
    let list = |word, first: u64| form(word, &(first..first + 8).collect::<Vec<u64>>());
    let rest = [list("out", 48), list("read", 24), list("write", 16)].join(" ");
    let first_in = |step: u64| if step < 6 { 8 * step } else { 56 };
    let step = |step| {
        let ins = list("in", first_in(step));
        format!("(step {} {ins} {rest})\n", 65_472 + step)
    };
    let steps: String = (0..64).map(step).collect();
    let done = "(done 65535)\n".repeat(64);
    format!("(old 64)\n{steps}(new 64)\n{steps}(job)\n{done}")
}

/// Each place stands in a step, and ten of them take a byte less than the others: 20 bytes
/// fewer than the longest sheet that reads. With one done line more it is refused.
#[test]
fn the_longest_sheet_that_goes() {
    let sheet = longest();
    assert_eq!(sheet.len(), 18_136 - 20);
    let mut dice = Dice::new(1);
    let more = [sheet.as_bytes(), b"(done 65535)\n"].concat();
    let out = random_bytes(20_500, &mut dice);
    assert_eq!(compare_way(UP, &more, &out, &mut dice).0.number, 4);
    let (answer, other) = compare_way(UP, sheet.as_bytes(), &out, &mut dice);
    assert_eq!(answer.number, 0);
    let other = &other[..answer.written as usize];
    let (answer, first) = compare_way(DOWN, other, &out[..sheet.len()], &mut dice);
    assert_eq!((answer.number, &first[..]), (0, sheet.as_bytes()));
}

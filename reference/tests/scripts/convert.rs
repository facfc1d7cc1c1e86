//! Sheets between editions (02, A.6): operations 26, 27 and 28, by hand and on random
//! scripts.

use crate::common::{answers, counted, numbers_of, slice};
use crate::kinds::Kinds;
use crate::kinds_of_convert::add;
use crate::random::{arguments, draw, operations_of, Answered};
use reference::random::convert::script;
use reference::random::dice::Dice;
use reference::random::script::MOST_BYTES;
use reference::script;
use reference::version::Version;
use std::sync::OnceLock;

const SCRIPTS: u64 = 600;

/// Each kind must be met so many times.
const LEAST: usize = 5;

const UP: u64 = 26;
const DOWN: u64 = 27;
const CONVERT: u64 = 28;

const SHEET: &str = include_str!("../../../examples/letters/A.sheet");

/// The sheet without its start lines.
fn of_01(sheet: &str) -> String {
    let lines = sheet.split_inclusive('\n');
    lines.filter(|line| !line.starts_with("(start")).collect()
}

/// The operation answers with this text in an out slice of this length.
#[track_caller]
fn gives(operation: u64, sheet: &str, text: &str, length: usize) {
    let mut out = vec![9; length];
    out[..text.len()].copy_from_slice(&numbers_of(text));
    let expected = [vec![0, 0, text.len() as u64], slice(&out)].concat();
    let bytes = counted(&numbers_of(sheet));
    answers(operation, &format!("{bytes} {length} 9"), &expected);
}

/// The operation is refused so, and an out slice of this length is as it was.
#[track_caller]
fn refused(operation: u64, sheet: &str, [number, second]: [u64; 2], length: usize) {
    let expected = [vec![number, second, 0], slice(&vec![9; length])].concat();
    let bytes = counted(&numbers_of(sheet));
    answers(operation, &format!("{bytes} {length} 9"), &expected);
}

#[test]
fn example_a() {
    let old = of_01(SHEET);
    assert_eq!((old.len(), SHEET.len()), (312, 332));
    for length in [332, 333, 21_000] {
        gives(UP, &old, SHEET, length);
        gives(CONVERT, &old, SHEET, length);
    }
    for length in [312, 313, 21_000] {
        gives(DOWN, SHEET, &old, length);
        gives(CONVERT, SHEET, &old, length);
    }
    for length in [331, 312, 1, 0] {
        refused(UP, &old, [15, 332], length);
        refused(CONVERT, &old, [15, 332], length);
    }
    for length in [311, 1, 0] {
        refused(DOWN, SHEET, [15, 312], length);
        refused(CONVERT, SHEET, [15, 312], length);
    }
    for length in [0, 400] {
        refused(UP, SHEET, [1, 11], length);
        refused(DOWN, &old, [1, 11], length);
        refused(UP, "", [1, 0], length);
        refused(DOWN, "", [1, 0], length);
        refused(CONVERT, "", [1, 0], length);
    }
}

#[test]
fn what_is_refused() {
    for (from, to, by_up, by_down) in [
        ("(old 4)", "(old 5)", [6, 1], [6, 1]),
        ("(new 4)", "(new 5)", [6, 5], [6, 6]),
        ("(done 20)", "(done 65536)", [2, 11], [22, 13]),
        ("(step 20", "(step 65536", [2, 3], [22, 4]),
        (
            "(write 2))\n(job)",
            "(write 2) (cloth))\n(job)",
            [1, 274],
            [22, 10],
        ),
        (
            "(out 3) (read 0 1) (write 2))\n(new",
            "(out 0 3) (read) (write))\n(new",
            [7, 1],
            [22, 2],
        ),
        (
            "(out 3) (read 0 1) (write 2))\n(job",
            "(out 0 3) (read) (write))\n(job",
            [7, 5],
            [22, 7],
        ),
    ] {
        assert!(SHEET.contains(from));
        let now = SHEET.replacen(from, to, 1);
        for length in [0, 21_000] {
            refused(UP, &of_01(&now), by_up, length);
            refused(CONVERT, &of_01(&now), by_up, length);
            refused(DOWN, &now, by_down, length);
            refused(CONVERT, &now, by_down, length);
        }
    }
    let empty = SHEET.replacen("(start 0)", "(start)", 1);
    refused(DOWN, &empty, [7, 2], 400);
    refused(CONVERT, &empty, [7, 2], 400);
}

/// The random scripts, drawn and answered once for all tests.
fn scripts() -> &'static [Answered] {
    static ALL: OnceLock<Vec<Answered>> = OnceLock::new();
    ALL.get_or_init(|| draw(SCRIPTS, script))
}

/// An operation: its sheet, its out slice's length and byte, and its answer.
struct Given {
    operation: u64,
    sheet: Vec<u64>,
    length: u64,
    byte: u64,
    numbers: &'static [u64],
}

fn operations() -> impl Iterator<Item = Given> {
    operations_of(scripts()).map(|(line, operation, numbers)| {
        let mut words = arguments(line);
        Given {
            operation,
            sheet: words.many(),
            length: words.next(),
            byte: words.next(),
            numbers,
        }
    })
}

impl Given {
    /// The out slice afterwards.
    fn out(&self) -> Vec<u64> {
        let runs = self.numbers[4..].chunks(2);
        let out: Vec<u64> = runs.flat_map(|run| vec![run[1]; run[0] as usize]).collect();
        assert_eq!(out.len() as u64, self.length);
        out
    }

    /// What another operation answers to the sheet with so much room.
    fn by(&self, operation: u64, length: u64) -> Vec<u64> {
        once(operation, &self.sheet, length, self.byte)
    }

    fn is_second_line_a_start(&self) -> bool {
        let end = self.sheet.iter().position(|&byte| byte == 10);
        let start = numbers_of("(start");
        end.is_some_and(|end| self.sheet[end + 1..].starts_with(&start))
    }

    /// Which way the operation takes the sheet.
    fn way(&self) -> u64 {
        match self.operation {
            CONVERT if self.is_second_line_a_start() => DOWN,
            CONVERT => UP,
            way => way,
        }
    }
}

fn once(operation: u64, sheet: &[u64], length: u64, byte: u64) -> Vec<u64> {
    let line = format!("{operation} {} {length} {byte}", counted(sheet));
    script::answers(&line).remove(0).1
}

#[test]
fn a_seed_gives_one_script() {
    let draw = |seed| script(&mut Dice::new(seed));
    assert_eq!(draw(5), draw(5));
    assert_ne!(draw(5), draw(6));
}

#[test]
fn scripts_are_of_these_operations() {
    let mut counts = [0; 3];
    let mut whole = 0;
    for (text, answers) in scripts() {
        assert!(text.len() < MOST_BYTES);
        whole += usize::from(text.lines().count() == answers.len());
        for (operation, _) in answers {
            counts[(operation - UP) as usize] += 1;
        }
    }
    println!("{whole} whole scripts; up, down and either: {counts:?}");
    assert!(whole > 510 && whole < scripts().len());
    assert!(counts.iter().all(|count| *count > 1_000));
}

/// A success leaves what stands behind the text, and goes back to the sheet; a refused
/// slice is as it was; 15 says how much is needed.
#[test]
fn answers_and_out_slices() {
    const ROOM: u64 = 21_000;
    for given in operations() {
        let [number, second, written] = [0, 1, 2].map(|at| given.numbers[at]);
        let (text, rest) = (given.out(), given.out().split_off(written as usize));
        assert!(rest.iter().all(|&byte| byte == given.byte));
        let with_room = given.by(given.operation, ROOM);
        match number {
            0 => {
                assert_eq!(second, 0);
                let text = &text[..written as usize];
                let back = UP + DOWN - given.way();
                let length = given.sheet.len() as u64;
                let sheet = [vec![0, 0, length], slice(&given.sheet)].concat();
                assert_eq!(once(back, text, length, 0), sheet);
                assert_eq!(once(CONVERT, text, length, 0), sheet);
            }
            15 => {
                assert_eq!((with_room[0], with_room[2], written), (0, second, 0));
                assert!(given.length < second);
                assert_eq!(given.by(given.operation, second)[0], 0);
                assert_eq!(given.by(given.operation, second - 1)[..2], [15, second]);
            }
            _ => assert_eq!(with_room[..3], [number, second, 0]),
        }
        assert_eq!(given.by(given.way(), given.length), given.numbers);
    }
}

/// The rows that each operation can meet, 0 for a success.
#[test]
fn every_operation_meets_each_of_its_rows() {
    let mut kinds = Kinds::default();
    for given in operations() {
        let (operation, way, row) = (given.operation, given.way(), given.numbers[0]);
        let rows = [0, 1, 2, 3, 4, 5, 6, 7, 15, 22];
        let most = if way == UP { 9 } else { 10 };
        assert!(rows[..most].contains(&row));
        kinds.add(
            true,
            &format!("operation {operation}, way {way}, row {row}"),
        );
    }
    kinds.finish(LEAST);
    assert_eq!(kinds.0.len(), 2 * 9 + 2 * 10);
}

/// What sheets meet, as far as they tell with room.
#[test]
fn kinds_of_sheets() {
    let mut kinds = Kinds::default();
    for given in operations() {
        let version = [Version::OF_01, Version::PRESENT][usize::from(given.way() == DOWN)];
        let bytes: Vec<u8> = given.sheet.iter().map(|&byte| byte as u8).collect();
        add(&mut kinds, &bytes, &version);
    }
    kinds.finish(LEAST);
}

/// Out slices by what the sheet needs with room; and 22 where 15 could be told too.
#[test]
fn kinds_of_out_slices() {
    let mut kinds = Kinds::default();
    for given in operations() {
        let way = ["up", "down"][(given.way() - UP) as usize];
        let row = given.numbers[0];
        let needed = given.by(given.way(), 21_000)[2];
        let mut add = |met, kind: &str| kinds.add(met, &format!("{way}, {kind}"));
        let goes = needed > 0;
        let length = given.length;
        add(goes && length == needed, "just long enough");
        add(goes && length == needed + 1, "a byte more");
        add(goes && length > needed + 1 && length < 21_000, "more");
        add(goes && length == 21_000, "far too long");
        add(goes && length + 1 == needed, "a byte short");
        add(goes && length > 0 && length + 1 < needed, "too short");
        add(goes && length == 0, "empty");
        let short = length < given.sheet.len() as u64 / 2;
        add((1..=7).contains(&row) && short, "1 to 7, in a short slice");
        if way == "down" {
            add(row == 22 && short, "22, in a short slice");
            add(row == 22 && length == 0, "22, in an empty slice");
        }
    }
    kinds.finish(LEAST);
    assert_eq!(kinds.0.len(), 2 * 8 + 2);
}

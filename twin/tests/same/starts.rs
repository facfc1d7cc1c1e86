//! Start lines: other places in random sheets, lines that nearly are one, rings, and
//! all places.

use crate::{same, same_in_all_slices, Seed};
use reference::judge::WORK;
use reference::print::listing_of;
use reference::random::{self, dice::mix, dice::Dice};
use reference::sheet::{self, form};

const SHEETS: u64 = 10_000;

/// The sheet with other start lines: each place below N at random, at times in
/// another order, twice or with one that isn't below N.
fn started(sheet: &str, dice: &mut Dice) -> String {
    let mut text = String::new();
    let mut places = 0;
    for line in sheet.lines() {
        if let Some(number) = line.split([' ', ')']).nth(1).filter(|_| is_head(line)) {
            places = number.parse().unwrap_or(0);
        }
        let mut line = line.to_string();
        if line.starts_with("(start") && dice.chance(70) {
            line = form("start", &some_places(places, dice));
        }
        text += &format!("{line}\n");
    }
    text
}

fn is_head(line: &str) -> bool {
    line.starts_with("(old ") || line.starts_with("(new ")
}

fn some_places(places: u64, dice: &mut Dice) -> Vec<u64> {
    let percent = [5, 30, 50, 100][dice.below(4)];
    let mut some: Vec<u64> = (0..places).filter(|_| dice.chance(percent)).collect();
    match dice.below(12) {
        0 => some.reverse(),
        1 => some.extend(some.last().copied()),
        2 => some.push(places),
        3 => some.push([64, 127, 128, 4_294_967_296][dice.below(4)]),
        _ => {}
    }
    some
}

#[test]
fn on_random_starts() {
    for number in 0..SHEETS {
        let _seed = Seed(number);
        let mut dice = Dice::new(mix(number));
        let text = sheet::text(&random::sheet(&mut dice));
        let sheet = started(&text, &mut dice).into_bytes();
        same(&sheet, WORK, 16_384);
        if number % 10 == 0 {
            same_in_all_slices(&sheet);
        }
    }
}

/// What may stand where a start line does, behind the LF of its head.
const LINES: [&str; 24] = [
    "(start 0)\n",
    "(start 1)\n",
    "(start 0 2)\n",
    "(start)\n",
    "(start 3)\n",
    "(start 0 64)\n",
    "(start 1 0)\n",
    "(start 2 2)\n",
    "(start 9999999999)\n",
    "(start 10000000000)\n",
    "",
    "\n",
    "(start)",
    "(start )\n",
    "(start  0)\n",
    "(start0)\n",
    "(start 0 )\n",
    "(start 0) \n",
    "(start 00)\n",
    "(starts 0)\n",
    "(star 0)\n",
    "(step 0)\n",
    "(start 0)\n(start 0)\n",
    " (start 0)\n",
];

/// Each head is followed so; cut short at every byte too.
#[test]
fn behind_heads() {
    let steps = "(step 10 (in 0) (out 1) (read) (write 0))\n\
                 (step 20 (in 1) (out 0 2) (read) (write) (cloth))\n";
    for old in LINES {
        for new in LINES {
            let done = "(job)\n(done 10)\n(done 20)\n";
            let sheet = format!("(old 3)\n{old}{steps}(new 3)\n{new}{steps}{done}");
            for len in 0..=sheet.len() {
                same(&sheet.as_bytes()[..len], WORK, 1_024);
            }
        }
    }
}

fn done_lines(names: &[u64]) -> String {
    let lines = names.iter().map(|name| format!("(done {name})\n"));
    lines.collect()
}

/// A ring of three steps, gone round again and again.
#[test]
fn on_a_ring() {
    let ring = "3)\n(start 1)\n(step 10 (in 1) (out 2) (read) (write 0))\n\
                (step 20 (in 2) (out 0) (read 0) (write 1))\n\
                (step 30 (in 0) (out 1) (read) (write) (cloth))\n";
    for count in [0, 1, 2, 3, 6, 7, 15, 16, 17, 63, 64, 65] {
        let done: Vec<u64> = [10, 20, 30].into_iter().cycle().take(count).collect();
        for new in [ring, &ring.replace("(start 1)", "(start 0)")] {
            let sheet = format!("(old {ring}(new {new}(job)\n{}", done_lines(&done));
            same_in_all_slices(sheet.as_bytes());
        }
    }
}

/// 64 places that all begin with a token, and steps that put back what they take: the
/// longest listing.
#[test]
fn on_all_places() {
    let eight = |first: u64| (first..first + 8).collect::<Vec<u64>>();
    let reads: Vec<u64> = (0..8).map(|at| 4 * at).collect();
    let step = |at: u64| {
        let [ins, outs] = ["in", "out"].map(|word| form(word, &eight(8 * at)));
        let writes = form("write", &eight(8 * (at % 4)));
        let (name, reads) = (at + 1, form("read", &reads));
        format!("(step {name} {ins} {outs} {reads} {writes})\n")
    };
    let start = form("start", &(0..64).collect::<Vec<u64>>());
    let route = format!("64)\n{start}\n{}", (0..8).map(step).collect::<String>());
    let done = [&[1, 5].repeat(30)[..], &[1, 2, 3, 4]].concat();
    let sheet = format!("(old {route}(new {route}(job)\n{}", done_lines(&done));
    assert_eq!(listing_of(sheet.as_bytes()).len(), 7_053);
    same_in_all_slices(sheet.as_bytes());
}

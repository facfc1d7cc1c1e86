//! The sheets that are timed.

use std::fmt::Write;

pub struct Case {
    pub name: &'static str,
    pub sheet: Vec<u8>,
    /// Its order is timed through try too.
    pub tried: bool,
}

/// A dozen steps from measuring to checking; cloth is chosen beside drawing,
/// and panels and patches are cut side by side.
const OLD: &str = "\
(old 15)
(start 0)
(step 110 (in 0) (out 1 2) (read) (write 0 1))
(step 120 (in 1) (out 3) (read 0) (write 2))
(step 130 (in 2) (out 4) (read 1) (write 3))
(step 135 (in 4) (out 5) (read 3) (write 13))
(step 140 (in 5) (out 6) (read 3) (write 4))
(step 150 (in 3 6) (out 7) (read 2 4) (write 5))
(step 160 (in 7) (out 8 9) (read 5) (write 6))
(step 170 (in 8) (out 10) (read 6) (write 7))
(step 180 (in 9) (out 11) (read 6) (write 8))
(step 190 (in 10) (out 12) (read 7) (write 9))
(step 200 (in 11 12) (out 13) (read 8 9) (write 10))
(step 220 (in 13) (out 14) (read 10) (write 12))
";

/// The same work redrawn: cloth and shrink test before drawing, no label (135),
/// patches before panels, and corner rings (210) before the last check.
const NEW: &str = "\
(new 13)
(start 0)
(step 110 (in 0) (out 1) (read) (write 0 1))
(step 130 (in 1) (out 2) (read 1) (write 3))
(step 140 (in 2) (out 3) (read 3) (write 4))
(step 120 (in 3) (out 4) (read 0) (write 2))
(step 150 (in 4) (out 5) (read 2 4) (write 5))
(step 160 (in 5) (out 6) (read 5) (write 6))
(step 180 (in 6) (out 7) (read 6) (write 8))
(step 170 (in 7) (out 8) (read 6) (write 7))
(step 190 (in 8) (out 9) (read 7) (write 9))
(step 200 (in 9) (out 10) (read 8 9) (write 10))
(step 210 (in 10) (out 11) (read 10) (write 11))
(step 220 (in 11) (out 12) (read 10 11) (write 12))
";

const DONE: [u32; 10] = [110, 120, 130, 135, 140, 150, 160, 170, 190, 180];

pub fn cases() -> Vec<Case> {
    let case = |name, text: String, tried| Case {
        name,
        sheet: text.into_bytes(),
        tried,
    };
    vec![
        case("usual job, moved by search", sheet(OLD, NEW, &DONE), true),
        case("usual job, cutting steps marked", marked(), false),
        case("usual job, ten-digit names", long_names(), false),
        case("refused by row 12, last done", changed(), false),
        case("done list follows the route", full(rising), true),
        case("done list in falling order", full(falling), true),
        case("branches at all places", branches(), false),
        case("long listing, straight", looped(), false),
        case("worst search, no order", worst(), false),
        case("longest sheet", longest(), false),
    ]
}

/// The sheets that go to 01's layout and back: the usual job, and one of 64 places and 64
/// steps whose lists are all full; each place is in a step, so it is 20 bytes shorter there
/// than the longest that reads.
pub fn between_layouts() -> [(&'static str, Vec<u8>); 2] {
    let list = |first: u32| (first..first + 8).map(entry).collect::<String>();
    let rest = [48, 24, 16].map(list);
    let line = |i: u32| {
        let ins = list(if i < 6 { 8 * i } else { 56 });
        step(65_472 + i, &ins, &rest[0], &rest[1], &rest[2])
    };
    let steps: String = (0..64).map(line).collect();
    let start: String = (0..48).chain(56..64).map(entry).collect();
    let longest = both(64, &start, &steps, &[65_535; 64]);
    [
        ("usual job", sheet(OLD, NEW, &DONE)),
        ("longest sheet that goes", longest),
    ]
    .map(|(name, text)| (name, text.into_bytes()))
}

fn sheet(old: &str, new: &str, done: &[u32]) -> String {
    let mut text = format!("{old}{new}(job)\n");
    for name in done {
        let _ = writeln!(text, "(done {name})");
    }
    text
}

/// The usual job with 4,000,000,000 more in each name.
fn long_names() -> String {
    let longer = |text: &str, word: &str| text.replace(word, &format!("{word}4000000"));
    let [old, new] = [OLD, NEW].map(|route| longer(route, "(step "));
    longer(&sheet(&old, &new, &DONE), "(done ")
}

/// The usual job with a mark on panels and patches (170, 180). They are cut in the
/// order that the new route has: the other way round it would not move.
fn marked() -> String {
    let mark = |route: &str, end: &str| route.replace(end, &end.replace("))", ") (cloth))"));
    let [old, new] = [OLD, NEW].map(|route| mark(&mark(route, "(write 7))"), "(write 8))"));
    let mut done = DONE;
    done[7..].rotate_right(1);
    sheet(&old, &new, &done)
}

/// The usual job, but the new route's 180 reads one variable more.
fn changed() -> String {
    let step = "(step 180 (in 6) (out 7) (read 6) (write 8))";
    let new = NEW.replace(step, &step.replace("read 6", "read 0 6"));
    sheet(OLD, &new, &DONE)
}

/// A step line, each list with the spaces before its entries.
fn step(name: u32, ins: &str, outs: &str, reads: &str, writes: &str) -> String {
    format!("(step {name} (in{ins}) (out{outs}) (read{reads}) (write{writes}))\n")
}

fn entry(number: u32) -> String {
    format!(" {number}")
}

/// Both routes of these places, start and steps.
fn both(places: u32, start: &str, steps: &str, done: &[u32]) -> String {
    let route = |word: &str| format!("({word} {places})\n(start{start})\n{steps}");
    sheet(&route("old"), &route("new"), done)
}

/// The order of a route's lines in which its done list follows it.
fn rising(lines: Vec<String>) -> String {
    lines.concat()
}

/// The order in which each done step stands just above the one before.
fn falling(mut lines: Vec<String>) -> String {
    lines.reverse();
    lines.concat()
}

/// 64 steps one after another, all done; each reads what the one before wrote.
fn full(order: fn(Vec<String>) -> String) -> String {
    let line = |i: u32| {
        let (from, to) = (entry(i), entry((i + 1).min(63)));
        step(1_000 + i, &from, &to, &entry((i + 31) % 32), &entry(i % 32))
    };
    let done: Vec<u32> = (1_000..1_064).collect();
    both(64, " 0", &order((0..64).map(line).collect()), &done)
}

/// 64 places in layers of eight. Each step takes from all of a layer and puts to all of the
/// next, eight steps from each; all are done in turn, round and round.
fn branches() -> String {
    let layer = |i: u32| (0..8).map(|at| entry(i % 8 * 8 + at)).collect::<String>();
    let line = |i: u32| {
        let (reads, writes) = (entry((i + 31) % 32), entry(i % 32));
        step(1_000 + i, &layer(i), &layer(i + 1), &reads, &writes)
    };
    let done: Vec<u32> = (1_000..1_064).collect();
    both(64, &layer(0), &(0..64).map(line).collect::<String>(), &done)
}

/// A step that loops on its place, done 63 times, each after all before.
fn looped() -> String {
    let steps = step(10, " 0", " 1", "", " 0") + &step(20, " 1", " 1", " 0", " 0 1 2 3 4 5 6 7");
    let done: Vec<u32> = [10].into_iter().chain([20; 63]).collect();
    both(2, " 0", &steps, &done)
}

/// 16 kept. In the new route they stand side by side, save that the last two
/// take the same token: every set without one of these is looked at, and none
/// of the 49,152 leads to an order.
fn worst() -> String {
    let start: String = (0..15).map(entry).collect();
    let mut old = "(old 17)\n(start 0)\n".to_string();
    let mut new = format!("(new 31)\n(start{start})\n");
    for i in 0..16 {
        let (name, writes) = (100 + i, entry(i));
        old += &step(name, &entry(i), &entry(i + 1), "", &writes);
        new += &step(name, &entry(i.min(14)), &entry(i + 15), "", &writes);
    }
    let done: Vec<u32> = (100..116).collect();
    sheet(&old, &new, &done)
}

/// The longest sheet that reads, 20,500 bytes, with a token on every place and a mark
/// on every step. Its places below 20 are in no step, so row 6 refuses it.
fn longest() -> String {
    let list: String = (0..8).map(|i| entry(20 + i)).collect();
    let steps: String = (0..64)
        .map(|i| step(4_000_000_000 + i, &list, &list, &list, &list))
        .collect();
    let steps = steps.replace("))\n", ") (cloth))\n");
    let start: String = (0..64).map(entry).collect();
    both(64, &start, &steps, &[u32::MAX; 64])
}

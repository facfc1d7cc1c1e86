//! Records that are wrong at each limit, the lines that writing would give, and
//! the rows of reading into lent lists, each worked by hand.

use crate::common::{answers, begun, counted, facts_a, numbers_of, padded, records, refused};
use crate::common::{Facts, Numbers, BY_VALUE};
use crate::direct::Step;

/// Every operation on these arguments, by value (0) or lent (10), is refused so.
#[track_caller]
fn all_refused(more: u64, facts: &str, refusal: [u64; 2]) {
    refused(2 + more, facts, refusal, 1);
    refused(3 + more, facts, refusal, 65);
    refused(4 + more, &format!("{facts} 3 2 1 3"), refusal, 1);
    let judged = [padded(&refusal, 166), vec![8_192, 8_192, 9]].concat();
    answers(5 + more, &format!("{facts} 8192 9"), &judged);
    if more == 0 {
        refused(25, facts, refusal, 2);
    }
    if refusal[0] <= 5 {
        let written = [refusal[0], refusal[1], 0, 400, 400, 7];
        answers(8 + more, &format!("{facts} 400 7"), &written);
    }
}

/// The same by value and lent.
#[track_caller]
fn both_refused(facts: &Facts, refusal: [u64; 2]) {
    all_refused(0, &facts.by_value(), refusal);
    all_refused(10, &facts.lent(), refusal);
}

/// Example A with one number of a record changed: route 0 or 1, record, field.
fn with(route: usize, record: usize, field: usize, number: u64) -> Facts {
    let mut facts = facts_a();
    let list = [&mut facts.old.list, &mut facts.new.list];
    list.into_iter().nth(route).unwrap()[record][field] = number;
    facts
}

/// The line of a record of example A.
fn line(route: usize, record: usize) -> u64 {
    (5 * route + record + 3) as u64
}

#[test]
fn place_counts() {
    for places in [0, 65, 66, (1 << 32) - 1] {
        let mut facts = facts_a();
        facts.new.places = places;
        both_refused(&facts, [2, 6]);
        facts.old.places = places;
        both_refused(&facts, [2, 1]);
    }
    // 64 places are a count in range: some are in no step. 3 are too few.
    let mut facts = facts_a();
    facts.new.places = 64;
    both_refused(&facts, [6, 6]);
    facts.new.places = 3;
    both_refused(&facts, [2, 10]);
}

#[test]
fn names_and_masks_of_each_record() {
    for (route, record) in [(0, 0), (0, 2), (1, 0), (1, 1)] {
        let line = line(route, record);
        for (field, number, row) in [
            (0, 0, 2),
            (1, 16, 2),
            (2, 16 | 1, 2),
            (1, 1 << 63, 2),
            (2, u64::MAX, 2),
            (1, 0, 3),
            (2, 0, 3),
            (3, 0x1ff, 3),
            (4, 0x1ff, 3),
            (3, (1 << 32) - 1, 3),
            (4, 0xff80_0000, 3),
        ] {
            both_refused(&with(route, record, field, number), [row, line]);
        }
    }
    both_refused(&with(0, 1, 0, 10), [5, 4]);
    both_refused(&with(0, 2, 0, 10), [5, 5]);
    both_refused(&with(1, 2, 0, 20), [5, 10]);
}

#[test]
fn for_each_line_the_rows_in_turn() {
    let mut facts = with(0, 1, 0, 10);
    facts.old.list[1][2] = 0;
    both_refused(&facts, [3, 4]);
    facts.old.list[1][1] = 16;
    both_refused(&facts, [2, 4]);
    facts.old.list[0][1] = 0;
    both_refused(&facts, [3, 3]);
    facts.old.start = 17;
    both_refused(&facts, [2, 2]);
    facts.old.places = 0;
    both_refused(&facts, [2, 1]);
}

#[test]
fn eight_entries_and_nine() {
    let mut facts = facts_a();
    let (low, high) = (0xff, 0xff00_0000);
    facts.old = records(
        9,
        &[[10, 1, 0x1fe, low, high, 0], [20, 0x1fe, 1, high, low, 0]],
    );
    facts.new = facts.old.clone();
    facts.done = vec![10];
    answers(2, &facts.by_value(), &[0, 0, 0x1fe]);
    answers(12, &facts.lent(), &[0, 0, 0x1fe]);
    facts.new.list[0][2] = 0x1ff;
    both_refused(&facts, [3, 7]);
}

/// A route with so many right records, each from place 0 to place 1.
fn many(count: u64) -> Facts {
    let list: Vec<Step> = (1..=count).map(|name| [name, 1, 2, 0, 0, 0]).collect();
    Facts {
        old: records(2, &list),
        new: records(2, &[[1, 1, 2, 0, 0, 0]]),
        done: vec![1],
    }
}

/// A bit at or above N is row 2 at the start's line; none is 7, after the lines.
#[test]
fn start_masks() {
    let started = |route: usize, start: u64| {
        let mut facts = facts_a();
        [&mut facts.old, &mut facts.new][route].start = start;
        facts
    };
    for (route, line) in [(0, 2), (1, 7)] {
        for start in [16, 1 | 16, 32, 1 << 32, 1 << 63, 15 | 1 << 63, u64::MAX] {
            both_refused(&started(route, start), [2, line]);
        }
        both_refused(&started(route, 0), [7, line]);
    }
    // Both: the old one's line comes first.
    let mut facts = started(0, 16);
    facts.new.start = 16;
    both_refused(&facts, [2, 2]);
    // Of 64 places the last may have a token.
    let wide = |places: u64| begun(places, 1 << 63, &[[10, 1, 2, 0, 0, 0]]);
    for (places, refusal) in [(64, [6, 1]), (63, [2, 2])] {
        let mut facts = facts_a();
        facts.old = wide(places);
        both_refused(&facts, refusal);
    }
}

/// Masks that the rows let through: the run ends where they say, the new route's
/// marking is its own, and what is written has them as lists.
#[test]
fn other_starts() {
    let steps = [[10, 1, 2, 0, 0, 0], [20, 2, 4, 0, 0, 0]];
    let facts = |old: u64, new: u64, done: &[u64]| Facts {
        old: begun(3, old, &steps),
        new: begun(3, new, &steps),
        done: done.to_vec(),
    };
    for (old, new) in [(1, 2), (2, 1), (7, 4), (4, 5), (3, 3)] {
        let facts = facts(old, new, &[]);
        for (more, text) in [(0, facts.by_value()), (10, facts.lent())] {
            answers(2 + more, &text, &[0, 0, old]);
            answers(4 + more, &format!("{text} 0"), &[0, 0, new]);
        }
    }
    for (old, done, answer) in [
        (1, 10, [0, 0, 2]),
        (1, 20, [9, 10, 0]),
        (2, 20, [0, 0, 4]),
        (2, 10, [9, 10, 0]),
        (3, 10, [9, 10, 0]),
        (3, 20, [0, 0, 5]),
        (5, 10, [0, 0, 6]),
        (6, 20, [9, 10, 0]),
    ] {
        let facts = facts(old, 1, &[done]);
        answers(2, &facts.by_value(), &answer);
        answers(12, &facts.lent(), &answer);
    }
    let step_lines = "(step 10 (in 0) (out 1) (read) (write))\n\
                      (step 20 (in 1) (out 2) (read) (write))\n";
    let written = format!(
        "(old 3)\n(start 0 2)\n{step_lines}(new 3)\n(start)\n{step_lines}(job)\n(done 10)\n"
    );
    let facts = facts(5, 0, &[10]);
    let length = written.len() as u64;
    let bytes = crate::common::slice(&numbers_of(&written));
    for (write, text) in [(8, facts.by_value()), (18, facts.lent())] {
        let expected = [vec![0, 0, length], bytes.clone()].concat();
        answers(write, &format!("{text} {length} 0"), &expected);
    }
    // And reading gives the masks again, also with no room for the lists.
    let sheet = counted(&numbers_of(&written));
    let head = |start, len| vec![3, start, len];
    let list = padded(&steps.concat(), BY_VALUE);
    let done = [vec![1], padded(&[10], 64)].concat();
    let routes = [head(5, 2), list.clone(), head(0, 2), list].concat();
    answers(6, &sheet, &[vec![0, 0], routes, done].concat());
    let into = [vec![0, 0, 3, 5, 2, 3, 0, 2, 1, 2], steps.concat()].concat();
    let into = [into, vec![2], steps.concat(), vec![1, 1, 10]].concat();
    answers(16, &format!("{sheet} 2 2 1"), &into);
}

#[test]
fn a_65th_record() {
    answers(2, &many(64).by_value(), &[0, 0, 2]);
    answers(12, &many(64).lent(), &[0, 0, 2]);
    for count in [65, 66, 100] {
        all_refused(10, &many(count).lent(), [4, 67]);
    }
    // An earlier line's fault goes first, a later one doesn't count.
    let mut facts = many(65);
    facts.old.list[64] = [0; 6];
    facts.new.places = 0;
    all_refused(10, &facts.lent(), [4, 67]);
    facts.old.list[63][1] = 0;
    all_refused(10, &facts.lent(), [3, 66]);
    // In the new route: its head is line 4.
    let mut facts = many(65);
    std::mem::swap(&mut facts.old, &mut facts.new);
    all_refused(10, &facts.lent(), [4, 70]);
}

/// A route by value with this `len` and so many right records.
fn with_len(len: u64, count: u64) -> String {
    let Facts { old, new, .. } = many(count);
    format!("{} {} 1 1", old.with_len(len), new.by_value())
}

#[test]
fn a_route_by_value_with_any_len() {
    for len in [65, 66, 256, 1 << 32, u64::MAX] {
        all_refused(0, &with_len(len, 64), [4, 67]);
        // The fourth record is blank, and its line goes first.
        all_refused(0, &with_len(len, 3), [2, 6]);
    }
    for len in [4, 64] {
        all_refused(0, &with_len(len, 3), [2, 6]);
    }
    // Records past `len` don't count.
    let mut facts = many(5);
    facts.old.list[3] = [0; 6];
    let text = |len| format!("{} {} 1 1", facts.old.with_len(len), facts.new.by_value());
    answers(2, &text(3), &[0, 0, 2]);
    all_refused(0, &text(4), [2, 6]);
    let written = "(old 2)\n(start 0)\n(step 1 (in 0) (out 1) (read) (write))\n\
                   (new 2)\n(start 0)\n(step 1 (in 0) (out 1) (read) (write))\n(job)\n(done 1)\n";
    let bytes = crate::common::slice(&numbers_of(written));
    let length = written.len() as u64;
    let script = format!("{} {length} 0", text(1));
    answers(8, &script, &[vec![0, 0, length], bytes].concat());
}

#[test]
fn a_route_with_no_step() {
    let mut facts = many(1);
    facts.new.list.clear();
    facts.done = vec![0; 3];
    both_refused(&facts, [4, 6]);
    facts.old.list.clear();
    facts.new.places = 0;
    both_refused(&facts, [4, 3]);
    facts.old.places = 0;
    both_refused(&facts, [2, 1]);
    all_refused(0, &with_len(0, 3), [4, 3]);
}

#[test]
fn done_lists_at_their_limits() {
    let mut facts = facts_a();
    facts.done = vec![10, 20, 0];
    both_refused(&facts, [2, 14]);
    // Other names are in range; 65,546 is 10 in its last 16 bits.
    for name in [65_535, 65_536, 65_546, (1 << 32) - 1] {
        facts.done = vec![name];
        both_refused(&facts, [8, 12]);
    }
    for count in [65, 66, 100] {
        facts.done = vec![10; count];
        both_refused(&facts, [4, 76]);
    }
    facts.done[64] = 0;
    both_refused(&facts, [4, 76]);
    facts.done[63] = 0;
    both_refused(&facts, [2, 75]);
    facts.done = vec![10; 64];
    both_refused(&facts, [9, 13]);
}

#[test]
fn rows_6_and_7() {
    let mut facts = facts_a();
    facts.new.places = 5;
    facts.done[0] = 40;
    both_refused(&facts, [6, 6]);
    facts.new.start = 0;
    both_refused(&facts, [6, 6]);
    facts.new.places = 4;
    both_refused(&facts, [7, 7]);
    facts.old.start = 0;
    both_refused(&facts, [7, 2]);
    facts.old.places = 5;
    both_refused(&facts, [6, 1]);
    // They are not write's: both starts are two bytes shorter than in A's 332.
    let written = [15, 328, 0, 0];
    answers(8, &format!("{} 0 0", facts.by_value()), &written);
    answers(18, &format!("{} 0 0", facts.lent()), &written);
}

#[test]
fn run_and_slice_end_after_row_9() {
    let facts = with(1, 1, 0, 11);
    for (more, text) in [(0, facts.by_value()), (10, facts.lent())] {
        answers(2 + more, &text, &[0, 0, 8]);
        answers(3 + more, &text, &padded(&[0, 0, 7, 0, 0, 3], 67));
        answers(4 + more, &format!("{text} 3 2 1 3"), &[11, 12, 0]);
    }
}

/// 10, then 20 over and over: each builds on the one before.
fn again(count: usize) -> Facts {
    let route = records(2, &[[10, 1, 2, 0, 0, 0], [20, 2, 2, 32, 32, 0]]);
    Facts {
        old: route.clone(),
        new: route,
        done: [vec![10], vec![20; count]].concat(),
    }
}

#[test]
fn a_straight_job_may_keep_over_16() {
    let facts = again(63);
    let all: Numbers = (1..=64).collect();
    let below = |bit: u64| (1_u64 << bit) - 1;
    // Occurrence k comes after all earlier ones but 1, which has no data.
    let rows: Numbers = (0..64).map(|row| below(row) & !1).collect();
    let kept_as_slice = u64::MAX - 1;
    let writers = padded(&[0, 0, 0, 0, 0, 64], 32);
    let moved = [
        vec![0, 0, u64::MAX, 0, 64],
        all.clone(),
        vec![2],
        rows.clone(),
        writers,
        vec![8_192, 8_192, 9],
    ];
    for (more, text) in [(0, facts.by_value()), (10, facts.lent())] {
        answers(5 + more, &format!("{text} 8192 9"), &moved.concat());
        let sliced = [vec![0, 0, kept_as_slice], rows.clone()].concat();
        answers(3 + more, &text, &sliced);
        let tried = |order: &[u64]| format!("{text} {}", counted(order));
        answers(4 + more, &tried(&all), &[0, 0, 2]);
        // Else it goes on with kept as the slice has it.
        answers(4 + more, &tried(&all[1..]), &[18, 1, 0]);
        answers(4 + more, &tried(&all[..63]), &[16, 1, 0]);
        answers(4 + more, &tried(&all[1..63]), &[16, 63, 0]);
    }
}

#[test]
fn row_10_where_straight_replay_fails() {
    // 10 fills another place, so 20 can't fire.
    for (count, refusal) in [(17, [10, 9]), (16, [13, 9])] {
        let mut facts = again(count);
        facts.new = records(3, &[[10, 1, 4, 0, 0, 0], [20, 2, 2, 32, 32, 0]]);
        facts.new.list[1][1] = 4;
        let work = [
            vec![8_192],
            [[8_192, 9], [8_192, 0]][(count == 16) as usize].to_vec(),
        ];
        let judged = [padded(&refusal, 166), work.concat()].concat();
        answers(5, &format!("{} 8192 9", facts.by_value()), &judged);
        answers(15, &format!("{} 8192 9", facts.lent()), &judged);
    }
}

#[test]
fn reading_into_lists_that_are_too_short() {
    let sheet = include_str!("../../../examples/letters/A.sheet").replace("(done 30)\n", "");
    let bytes = counted(&numbers_of(&sheet));
    for (room, needed) in [
        ([2, 0, 0], 3),
        ([3, 2, 0], 3),
        ([3, 3, 1], 2),
        ([0, 100, 100], 3),
    ] {
        let records =
            |count: u64| [vec![count], [7, 7, 7, 7, 7, 1].repeat(count as usize)].concat();
        let runs = |count: u64| match count {
            0 => vec![0],
            _ => vec![count, count, 7],
        };
        let unchanged = [records(room[0]), records(room[1]), runs(room[2])].concat();
        let refused = [padded(&[15, needed], 9), unchanged].concat();
        let [old, new, done] = room;
        answers(16, &format!("{bytes} {old} {new} {done}"), &refused);
    }
    // The rows to 5 go first.
    let wrong = sheet.replace("(done 20)", "(done 0)");
    let bytes = counted(&numbers_of(&wrong));
    refused(16, &format!("{bytes} 0 0 0"), [2, 13], 7 + 3);
    refused(6, &bytes, [2, 13], 2 * (3 + BY_VALUE) + 65);
    answers(7, &bytes, &[0]);
}

#[test]
fn the_longest_sheet_in_a_script() {
    let lists = "(in 56 57 58 59 60 61 62 63) (out 48 49 50 51 52 53 54 55) \
                 (read 24 25 26 27 28 29 30 31) (write 16 17 18 19 20 21 22 23)";
    let steps: String = (4_294_967_232_u64..=4_294_967_295)
        .map(|name| format!("(step {name} {lists} (cloth))\n"))
        .collect();
    let done = "(done 4294967295)\n".repeat(64);
    let all: String = (0..64).map(|place| format!(" {place}")).collect();
    let start = format!("(start{all})\n");
    let sheet = format!("(old 64)\n{start}{steps}(new 64)\n{start}{steps}(job)\n{done}");
    assert_eq!(sheet.len(), 20_500);
    let script = counted(&numbers_of(&sheet));
    assert!(script.len() < 65_000);
    let part = format!("(job)\n{done}");
    answers(7, &script, &crate::common::slice(&numbers_of(&part)));
    answers(10, &format!("{script} 0"), &[6, 1, 0]);
}

//! Look-up from where we were (02, A.3), worked by hand: where it begins, where it
//! goes round, how many names it compares, and the totals of jobs.

use crate::common::{chain, facts, refusal, step, turned_round, NEW, OLD, SHEET};
use crate::shelf::letter;
use reference::lookup::{comparisons, find, find_in_turn, positions, total, Found};
use reference::net::run;
use reference::sheet::{read, Sheet};

const NAMES: [u64; 5] = [10, 20, 30, 40, 50];

/// Past the last of five names, and far past it.
const PAST: [u64; 7] = [5, 6, 7, 10, 1 << 32, (1 << 32) + 2, u64::MAX];

/// Begun here, the name is found at this position after so many comparisons.
#[track_caller]
fn finds(names: &[u64], from: u64, name: u64, at: usize, compared: usize) {
    let found = Found {
        at: Some(at),
        compared,
        next: at as u64 + 1,
    };
    assert_eq!(find(names, from, name), found, "{name} from {from}");
}

/// There is none: all are compared, and the beginning stays.
#[track_caller]
fn misses(names: &[u64], from: u64, name: u64) {
    let missed = Found {
        at: None,
        compared: names.len(),
        next: from,
    };
    assert_eq!(find(names, from, name), missed, "{name} from {from}");
}

#[test]
fn the_first_time_at_the_top() {
    for (at, name) in NAMES.into_iter().enumerate() {
        finds(&NAMES, 0, name, at, at + 1);
        assert_eq!(find_in_turn(&NAMES, &[name]), [find(&NAMES, 0, name)]);
    }
}

#[test]
fn after_the_step_found_last() {
    // 20 has been found, at position 1: 30, 40, 50, 10, 20 are looked at.
    assert_eq!(positions(5, 2), [2, 3, 4, 0, 1]);
    assert_eq!(find(&NAMES, 0, 20).next, 2);
    // The name just below costs one.
    finds(&NAMES, 2, 30, 2, 1);
    finds(&NAMES, 2, 40, 3, 2);
    finds(&NAMES, 2, 50, 4, 3);
    // The one just above costs all but one, the same name again all.
    finds(&NAMES, 2, 10, 0, 4);
    finds(&NAMES, 2, 20, 1, 5);
}

#[test]
fn past_the_last_step_at_the_top() {
    assert_eq!(find(&NAMES, 0, 50).next, 5);
    for from in PAST {
        assert_eq!(positions(5, from), [0, 1, 2, 3, 4]);
        finds(&NAMES, from, 10, 0, 1);
        finds(&NAMES, from, 20, 1, 2);
        finds(&NAMES, from, 40, 3, 4);
        finds(&NAMES, from, 50, 4, 5);
    }
    // The last is not yet past it: 50, 10, 20, 30, 40.
    finds(&NAMES, 4, 50, 4, 1);
    finds(&NAMES, 4, 10, 0, 2);
    finds(&NAMES, 4, 40, 3, 5);
}

#[test]
fn all_where_there_is_none() {
    for from in (0..5).chain(PAST) {
        for name in [0, 11, 60, 10 + (1 << 16), 20 + (1 << 8)] {
            misses(&NAMES, from, name);
        }
    }
}

#[test]
fn no_name_and_one() {
    for from in [0, 1, 2, u64::MAX] {
        misses(&[], from, 10);
        misses(&[20], from, 10);
        finds(&[10], from, 10, 0, 1);
    }
}

/// Of a name that stands twice, the one met first counts.
#[test]
fn names_that_stand_twice() {
    let names = [7, 8, 7, 9];
    finds(&names, 0, 7, 0, 1);
    finds(&names, 1, 7, 2, 2);
    finds(&names, 2, 7, 2, 1);
    finds(&names, 3, 7, 0, 2);
    finds(&names, 4, 7, 0, 1);
}

/// 276 ends with the 8 bits of 20, and 65,556 with the 16.
#[test]
fn names_that_end_alike() {
    let names = [276, 65_556, 20];
    finds(&names, 0, 20, 2, 3);
    finds(&names, 1, 276, 0, 3);
    finds(&names, 2, 65_556, 1, 3);
    misses(&names, 1, 276 + (1 << 16));
}

#[test]
fn totals_of_names_in_turn() {
    for (wanted, expected) in [
        (&[][..], 0),
        // Each just below the last: one each, and on from the last to the top.
        (&NAMES, 5),
        (&[10, 20, 30, 40, 50, 10, 20], 7),
        (&[30, 40, 50, 10, 20], 3 + 4),
        // From the bottom up: 50 stands fifth. Then begin past the last: 40 is the
        // fourth from the top. 30: 50 10 20 30, and so on.
        (&[50, 40, 30, 20, 10], 5 + 4 + 4 + 4 + 4),
        // The same over and over: 40 50 10 20 30.
        (&[30, 30, 30], 3 + 5 + 5),
        // Every other one: 10, 20 30, 40 50, 10 20, 30 40.
        (&[10, 30, 50, 20, 40], 1 + 2 + 2 + 2 + 2),
        // After a miss the beginning stays: 30 stands there.
        (&[10, 20, 99, 30], 1 + 1 + 5 + 1),
        (&[20, 99, 98, 20], 2 + 5 + 5 + 5),
        (&[50, 99, 10], 5 + 5 + 1),
        (&[99, 10], 5 + 1),
        (&[99, 99], 5 + 5),
    ] {
        assert_eq!(total(&NAMES, wanted), expected, "{wanted:?}");
    }
    assert_eq!(total(&[], &[10, 20]), 0);
    assert_eq!(total(&[], &[]), 0);
}

/// The totals of the run and of the match.
#[track_caller]
fn compares(facts: &Sheet, run: usize, matched: usize) {
    assert_eq!(comparisons(facts), Ok((run, matched)));
}

/// The new route's names are 20, 10, 30. The match finds 10 after 20 10; 20, begun
/// at 30, after 30 20; 30, begun at 10, after 10 30.
#[test]
fn example_a() {
    compares(&read(SHEET.as_bytes()).unwrap(), 1 + 1 + 1, 2 + 2 + 2);
}

/// Judge's rows from 10 on have no say.
#[test]
fn the_other_letters() {
    for (name, run, matched) in [
        // Nothing done.
        ('B', 0, 0),
        ('C', 1, 2),
        ('D', 1 + 1, 2 + 2),
        // The new route has 20 and 30: 10 is a miss, and 20 stands at the top.
        ('F', 1 + 1, 2 + 1),
        ('G', 1, 2),
        // Both have 10 and 20; 20 again costs both.
        ('K', 1 + 1 + 2, 1 + 1 + 2),
        ('L', 0, 0),
    ] {
        compares(&letter(name).0, run, matched);
    }
    for (name, number, second) in [('E', 23, 9), ('H', 8, 12), ('I', 9, 12), ('J', 9, 11)] {
        let refused = Err(refusal(number, second));
        assert_eq!(comparisons(&letter(name).0), refused, "{name}");
    }
}

/// Step 20 goes on and 30 goes back, over and over.
#[test]
fn a_loop() {
    let lines = [
        step(10, " 0", " 1", "", ""),
        step(20, " 1", " 2", "", ""),
        step(30, " 2", " 1", "", ""),
    ];
    let old = format!("(old 3)\n(start 0)\n{}", lines.concat());
    let [first, second, third] = lines;
    let done = [10, 20, 30, 20, 30, 20];
    // Old: 30 is the last, so 20 is looked for from the top and costs 10 20. New,
    // with 20 30 10: 10 is the third; then 20, 30; then 20 costs 10 20.
    let new = format!("(new 3)\n(start 0)\n{second}{third}{first}");
    compares(
        &facts(&old, &new, &done),
        1 + 1 + 1 + 2 + 1 + 2,
        3 + 1 + 1 + 2 + 1 + 2,
    );
    // 30 20 10: 10 is the third; 20 the second, then the one above costs 10 30,
    // and the one just below one.
    let new = format!("(new 3)\n(start 0)\n{third}{second}{first}");
    compares(
        &facts(&old, &new, &done),
        1 + 1 + 1 + 2 + 1 + 2,
        3 + 2 + 2 + 1 + 2 + 1,
    );
}

/// The new route lacks 2. After 1 the match begins at 3, and 2 is a miss that
/// costs all; 3 still stands where it begins.
#[test]
fn after_a_miss_of_the_match_the_beginning_stays() {
    let old = chain("old", &[1, 2, 3]);
    compares(
        &facts(&old, &chain("new", &[1, 3]), &[1, 2, 3]),
        3,
        1 + 2 + 1,
    );
    // 3 is lacking, a miss at the top: 1 still stands there, and 2 costs 4 2.
    let old = chain("old", &[3, 1, 2]);
    compares(
        &facts(&old, &chain("new", &[1, 4, 2]), &[3, 1, 2]),
        3,
        3 + 1 + 2,
    );
    // All are lacking.
    compares(
        &facts(&old, &chain("new", &[4, 5]), &[3, 1, 2]),
        3,
        2 + 2 + 2,
    );
}

/// A done list that follows the route costs one each. Turned round, the first one
/// is the last of all and the others each the one above.
#[test]
fn done_lists_that_follow_and_that_fall() {
    for count in [1, 2, 3, 16, 63] {
        let (old, new, done) = turned_round(count);
        let count = count as usize;
        let fall = count + (count - 1) * (count - 1);
        compares(&facts(&old, &new, &done), count, fall);
        // Some that follow are done.
        let some = &done[..count / 2];
        let facts = facts(&old, &old.replace("old", "new"), some);
        compares(&facts, count / 2, count / 2);
    }
}

/// 64 steps and 64 done: one opens the route and stands last, then the one above it
/// is done over and over. Of the new route's 64 names none is done.
#[test]
fn the_most_comparisons() {
    let others = |from: u64| (from..from + 63).map(|name| step(name, " 1", " 1", "", ""));
    let route = |word: &str, from: u64| {
        let lines: String = others(from).collect();
        let last = step(from + 63, " 0", " 1", "", "");
        format!("({word} 2)\n(start 0)\n{lines}{last}")
    };
    let done = [vec![64], vec![63; 63]].concat();
    let facts = facts(&route("old", 1), &route("new", 101), &done);
    compares(&facts, 64 + 63 + 62 * 64, 64 * 64);
}

/// The rows that run has, with its refusals.
#[test]
fn refused_jobs() {
    let right = facts(OLD, NEW, &[10, 20, 30]);
    let refused = |change: &dyn Fn(&mut Sheet), number, second| {
        let mut facts = right.clone();
        change(&mut facts);
        assert_eq!(comparisons(&facts), Err(refusal(number, second)));
        assert_eq!(run(&facts), Err(refusal(number, second)));
    };
    refused(&|f| f.old.steps.clear(), 4, 3);
    refused(&|f| f.done = vec![10; 65], 4, 11 + 65);
    refused(&|f| f.done[2] = 0, 2, 14);
    refused(&|f| f.new.steps[0].name = 0, 2, 8);
    refused(&|f| f.new.steps[2].ins.clear(), 3, 10);
    refused(&|f| f.new.steps[2].name = 20, 5, 10);
    refused(&|f| f.old.start = vec![4], 2, 2);
    refused(&|f| f.new.start = vec![0, 0], 3, 7);
    refused(&|f| f.old.places = 5, 6, 1);
    refused(&|f| f.new.places = 5, 6, 6);
    refused(&|f| f.old.start.clear(), 7, 2);
    refused(&|f| f.new.start.clear(), 7, 7);
    refused(&|f| f.done[1] = 40, 8, 13);
    refused(&|f| f.done[1] = 30, 9, 13);
}

//! Replays (01) and the sequence of cloth occurrences at their end (02, A.4), worked
//! by hand.

use crate::common::{cut, facts, step};
use reference::net::Marking;
use reference::sheet::Sheet;
use reference::values::{replay, End, Held};

/// 1,000 for the occurrence, 100 for the variable, and what was read; a blank is 7.
fn function(occurrence: usize, variable: u64, read: &[Held]) -> u64 {
    let read: u64 = read.iter().map(|held| held.unwrap_or(7)).sum();
    1_000 * occurrence as u64 + 100 * variable + read
}

/// 10 writes 0, 20 and 40 cut, and 30 writes 1 from 0 and a blank. On the new route
/// 20 stands after 30.
fn job() -> Sheet {
    let old = [
        "(old 5)\n(start 0)\n",
        &step(10, " 0", " 1", "", " 0"),
        &cut(20, " 1", " 2", "", ""),
        &step(30, " 2", " 3", " 0 2", " 1"),
        &cut(40, " 3", " 4", " 1", " 3"),
    ];
    let new = [
        "(new 5)\n(start 0)\n",
        &step(10, " 0", " 1", "", " 0"),
        &step(30, " 1", " 2", " 0 2", " 1"),
        &cut(20, " 2", " 3", "", ""),
        &cut(40, " 3", " 4", " 1", " 3"),
    ];
    facts(&old.concat(), &new.concat(), &[10, 20, 30, 40])
}

fn variables(held: [Held; 4]) -> [Held; 32] {
    let mut all = [None; 32];
    all[..4].copy_from_slice(&held);
    all
}

#[test]
fn the_whole_job_and_its_move() {
    let facts = job();
    let whole = replay(&facts.old, &facts.done, &[1, 2, 3, 4], &function);
    let end = End {
        taken: 4,
        marking: Marking::from([4]),
        variables: variables([Some(1_000), Some(4_107), None, Some(8_407)]),
        cloth: vec![2, 4],
    };
    assert_eq!(whole, end);
    let moved = replay(&facts.new, &facts.done, &[1, 3, 2, 4], &function);
    assert_eq!(moved, end);
}

/// The sequence is of those that fired, by the marks of the route that is replayed.
#[test]
fn a_replay_that_ends_early() {
    let mut facts = job();
    let ends = |facts: &Sheet| replay(&facts.new, &facts.done, &[1, 3, 2, 3, 4], &function);
    let stuck = ends(&facts);
    assert_eq!((stuck.taken, stuck.cloth), (3, vec![2]));
    facts.new.steps[1].cloth = true;
    facts.new.steps[2].cloth = false;
    assert_eq!(ends(&facts).cloth, [3]);
    facts.new.steps[1].name = 31;
    let lacking = ends(&facts);
    assert_eq!((lacking.taken, lacking.cloth), (1, vec![]));
}

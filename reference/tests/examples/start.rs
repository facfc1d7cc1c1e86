//! Start places written down (02, A.5), worked by hand: routes that loop back to their
//! first place, jobs that have gone round, and starts other than 01's.

use crate::common::{both, cut, facts, lists, refusal, sheet, step, with_line, SHEET};
use reference::fit::try_order;
use reference::judge::{judge, WORK};
use reference::net::{implied_start, run, start, Marking};
use reference::print::listing_of;
use reference::sheet::{form, read};
use reference::values::{replay, Held};

/// 10, 20 and 30 in a ring: 30 puts the token back on the first place.
fn ring(word: &str) -> String {
    let steps = [
        step(10, " 0", " 1", "", " 0"),
        step(20, " 1", " 2", " 0", " 1"),
        step(30, " 2", " 0", "", ""),
    ];
    format!("({word} 3)\n(start 0)\n{}", steps.concat())
}

/// The same, with 30 before 20.
fn redrawn() -> String {
    let steps = [
        step(10, " 0", " 1", "", " 0"),
        step(30, " 1", " 2", "", ""),
        step(20, " 2", " 0", " 0", " 1"),
    ];
    format!("(new 3)\n(start 0)\n{}", steps.concat())
}

#[test]
fn what_01_implied() {
    let facts = read(SHEET.as_bytes()).unwrap();
    assert_eq!(implied_start(&facts.old), Marking::from([0]));
    assert_eq!(start(&facts.old), Marking::from([0]));
    let ring = facts_of_a_ring(&[]);
    assert_eq!(implied_start(&ring.old), Marking::new());
    assert_eq!(start(&ring.old), Marking::from([0]));
}

fn facts_of_a_ring(done: &[u64]) -> reference::sheet::Sheet {
    facts(&ring("old"), &ring("new"), done)
}

/// A ring goes round over and over, and moves straight to itself.
#[test]
fn gone_round() {
    let names = [10, 20, 30];
    for (done, place) in [(0, 0), (1, 1), (2, 2), (3, 0), (6, 0), (7, 1), (64, 1)] {
        let done: Vec<u64> = names.into_iter().cycle().take(done).collect();
        let facts = facts_of_a_ring(&done);
        assert_eq!(run(&facts), Ok(Marking::from([place])));
        let moved = judge(&facts, &mut [0; WORK]).unwrap();
        assert!(moved.straight);
        assert_eq!(moved.marking, Marking::from([place]));
        assert_eq!(moved.kept.len(), done.len());
    }
    // It can't begin in the middle, nor go round the other way.
    for (done, refusal) in [(&[20][..], [9, 12]), (&[10, 30], [9, 13])] {
        let [number, second] = refusal;
        let listing = format!("(refused {number} {second})\n");
        lists(&ring("old"), &ring("new"), done, &listing);
    }
}

/// Gone round twice, with 30 dropped in both rounds: of the rest the last round is
/// kept, and 10 and 20 need no more than that on the new route, save that it wants 30
/// between them.
#[test]
fn moved_from_a_ring_to_another() {
    let done = [10, 20, 30, 10, 20, 30];
    lists(&ring("old"), &redrawn(), &done, "(refused 13 11)\n");
    // Without 30 on the new route the last 10 and the last 20 could have been all.
    let steps = [
        step(10, " 0", " 1", "", " 0"),
        step(20, " 1", " 0", " 0", " 1"),
    ];
    let new = format!("(new 2)\n(start 0)\n{}", steps.concat());
    let listing = "\
(moved (kept 2) (dropped 4))
(after 5 4)
(order 4 5)
(marking 0)
(value 0 4)
(value 1 5)
";
    lists(&ring("old"), &new, &done, listing);
    let tried = |order: &[u8]| try_order(&facts(&ring("old"), &new, &done), order);
    assert_eq!(tried(&[4, 5]), Ok(Marking::from([0])));
    assert_eq!(tried(&[5, 4]), Err(refusal(17, 1)));
    assert_eq!(tried(&[1, 2, 4, 5]), Err(refusal(16, 1)));
}

/// Cloth is cut in each round and stays cut: both rounds are kept, and the new ring
/// is gone round twice.
#[test]
fn cut_in_each_round() {
    let route = |word: &str, steps: [String; 3]| {
        let steps = steps.concat();
        format!("({word} 3)\n(start 0)\n{steps}")
    };
    let old = [
        step(10, " 0", " 1", "", " 0"),
        cut(20, " 1", " 2", " 0", ""),
        step(30, " 2", " 0", "", " 1"),
    ];
    // 30, which has nothing to do with the others, comes first.
    let new = [
        step(30, " 0", " 1", "", " 1"),
        step(10, " 1", " 2", "", " 0"),
        cut(20, " 2", " 0", " 0", ""),
    ];
    let done = [10, 20, 30, 10, 20, 30];
    let (old, new) = (route("old", old), route("new", new));
    // The first 30 isn't kept, and the new ring can't be gone round twice without it.
    lists(&old, &new, &done, "(refused 13 11)\n");
    // Where 30 cuts too it is kept, but the cuts would change their order.
    let both_cut = |route: &str| route.replace("(write 1))", "(write 1) (cloth))");
    let (old, new) = (both_cut(&old), both_cut(&new));
    lists(&old, &new, &done, "(refused 13 11)\n");
    // On a ring with 30 behind the first cut, both rounds are gone again.
    let same = old.replace("(old", "(new");
    let listing = listing_of(sheet(&old, &same, &done).as_bytes());
    assert!(listing.starts_with("(moved (kept 6) (dropped 0))\n(after 2 1)\n(after 3 2)\n"));
    assert!(listing.contains("(order 1 2 3 4 5 6)\n(marking 0)\n"));
}

/// The start decides, not which places are out-places of no step.
#[test]
fn starts_other_than_01s() {
    let steps = step(10, " 0", " 1", "", "") + &step(20, " 1", " 2", "", "");
    let route = |word: &str, start: &str| format!("({word} 3)\n(start{start})\n{steps}");
    let moved = |order: &str, marking: &str| {
        format!("(moved (kept 0) (dropped 0))\n(order{order})\n(marking{marking})\n")
    };
    // Each route begins at its own start, and the marking is the new one's.
    for (old, new) in [(" 0", " 1"), (" 1", " 0"), (" 0 1 2", " 2"), (" 2", " 0 2")] {
        let (old, new) = (route("old", old), route("new", new));
        let marking = new.lines().nth(1).unwrap();
        let marking = marking.replace("(start", "").replace(')', "");
        lists(&old, &new, &[], &moved("", &marking));
    }
    let one = |old: &str, new: &str, done: u64| {
        let sheet = sheet(&route("old", old), &route("new", new), &[done]);
        listing_of(sheet.as_bytes())
    };
    // In the middle 20 can be done and 10 can't; a token lies where 10 puts one.
    assert_eq!(one(" 1", " 1", 10), "(refused 9 10)\n");
    assert_eq!(one(" 0 1", " 0", 10), "(refused 9 10)\n");
    assert_eq!(one(" 0", " 1", 20), "(refused 9 10)\n");
    let straight = "(moved (kept 1) (dropped 0))\n(order 1)\n";
    assert_eq!(one(" 1", " 1", 20), format!("{straight}(marking 2)\n"));
    assert_eq!(one(" 0 1", " 1", 20), format!("{straight}(marking 2)\n"));
    // Nothing is kept; from the other start the new route can't do it.
    let searched = "(moved (kept 0) (dropped 1))\n(order)\n";
    assert_eq!(one(" 1", " 0", 20), format!("{searched}(marking 0)\n"));
    assert_eq!(one(" 0", " 2", 10), format!("{searched}(marking 2)\n"));
}

/// What matters can't be done from the new route's start.
#[test]
fn a_new_start_too_far_on() {
    for (new_start, listing) in [
        ("(start 0)\n", "(moved (kept 3) (dropped 0))\n"),
        ("(start 1)\n", "(refused 13 11)\n"),
        ("(start 2)\n", "(refused 13 11)\n"),
        ("(start 3)\n", "(refused 13 11)\n"),
        // 30 would put a token where one lies.
        ("(start 0 3)\n", "(refused 13 11)\n"),
    ] {
        let listed = listing_of(with_line(7, new_start).as_bytes());
        assert!(listed.starts_with(listing), "{new_start}");
    }
    // With a token for each of the first two it moves as it stands.
    let straight = listing_of(with_line(7, "(start 0 1)\n").as_bytes());
    assert!(straight.contains("(order 1 2 3)\n(marking 1 3)\n"));
    // On the old route the first done step tells.
    for old_start in ["(start 1)\n", "(start 0 1)\n", "(start 2 3)\n"] {
        let listed = listing_of(with_line(2, old_start).as_bytes());
        assert_eq!(listed, "(refused 9 12)\n", "{old_start}");
    }
    let listed = listing_of(with_line(2, "(start 0 2)\n").as_bytes());
    assert_eq!(listed, "(refused 9 13)\n");
}

/// All 64 places have a token at the start, each step takes eight and puts them back:
/// the longest listing that there is, 7,053 bytes.
#[test]
fn sixty_four_places_all_started() {
    let all: Vec<u64> = (0..64).collect();
    let eight = |first: u64| -> String { (first..first + 8).map(|n| format!(" {n}")).collect() };
    let line = |at: u64| {
        let (places, variables) = (eight(8 * at), eight(8 * (at % 4)));
        step(at + 1, &places, &places, " 0", &variables)
    };
    let steps: String = (0..8).map(line).collect();
    let start: String = all.iter().map(|place| format!(" {place}")).collect();
    let (old, new) = both(64, &start, &steps);
    let listing = "(moved (kept 0) (dropped 0))\n(order)\n".to_string();
    lists(&old, &new, &[], &(listing + &form("marking", &all) + "\n"));
    // Steps 1 and 5 write what all read: each comes after all, if every other one is
    // such a step. Of the last four each writes eight variables for the last time.
    let done = [[1, 5].repeat(30), vec![1, 2, 3, 4]].concat();
    let listing = listing_of(sheet(&old, &new, &done).as_bytes());
    assert!(listing.contains(&(form("marking", &all) + "\n")));
    assert!(listing.starts_with("(moved (kept 64) (dropped 0))\n"));
    assert!(listing.len() < 7_053);
    // Where all of the last four write what the others write, nothing is missing.
    let every: String = (0..8).map(|at| format!(" {}", 4 * at)).collect();
    let longest = steps.replace("(read 0)", &format!("(read{every})"));
    let (old, new) = both(64, &start, &longest);
    let listing = listing_of(sheet(&old, &new, &done).as_bytes());
    assert_eq!(listing.len(), 7_053);
}

/// A replay of values begins at the written start.
#[test]
fn a_replay() {
    let function = |occurrence: usize, variable: u64, read: &[Held]| {
        let read: u64 = read.iter().map(|held| held.unwrap_or(7)).sum();
        100 * occurrence as u64 + 10 * variable + read
    };
    let facts = facts_of_a_ring(&[10, 20, 30, 10]);
    let end = replay(&facts.old, &facts.done, &[1, 2, 3, 4], &function);
    assert_eq!((end.taken, end.marking), (4, Marking::from([1])));
    assert_eq!(end.variables[..2], [Some(400), Some(310)]);
    let mut further = facts;
    further.old.start = vec![1];
    let end = replay(&further.old, &further.done, &[2, 3, 1], &function);
    assert_eq!((end.taken, end.marking), (3, Marking::from([1])));
    assert_eq!(end.variables[..2], [Some(100), Some(217)]);
    let end = replay(&further.old, &further.done, &[1], &function);
    assert_eq!((end.taken, end.marking), (0, Marking::from([1])));
}

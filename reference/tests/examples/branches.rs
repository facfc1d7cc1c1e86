//! Branches taken (02, A.8), worked by hand: which places are shared, who put a token,
//! and what is kept for it.

use crate::common::{both, cut, facts, lists, refused, sheet, step};
use reference::slice::{slice, Occurrences, Slice};

/// 10 plans, 20 is the shrink test, which writes nothing; then the sail goes down the
/// racing branch, 30, or the cruising branch, 40.
fn old() -> String {
    let steps = [
        step(10, " 0", " 1", "", " 0"),
        step(20, " 1", " 2", "", ""),
        step(30, " 2", " 3", " 0", " 1"),
        step(40, " 2", " 3", " 0", " 2"),
    ];
    format!("(old 4)\n(start 0)\n{}", steps.concat())
}

/// The new route without the test.
fn untested() -> String {
    let steps = [
        step(10, " 0", " 1", "", " 0"),
        step(30, " 1", " 2", " 0", " 1"),
        step(40, " 1", " 2", " 0", " 2"),
    ];
    format!("(new 3)\n(start 0)\n{}", steps.concat())
}

/// The new route with the test before the plan.
fn tested_first() -> String {
    let steps = [
        step(20, " 0", " 1", "", ""),
        step(10, " 1", " 2", "", " 0"),
        step(30, " 2", " 3", " 0", " 1"),
        step(40, " 2", " 3", " 0", " 2"),
    ];
    format!("(new 4)\n(start 0)\n{}", steps.concat())
}

/// The racing branch moved to there.
const MOVED_WITH_THE_TEST: &str = "\
(moved (kept 3) (dropped 0))
(after 3 1 2)
(order 2 1 3)
(marking 3)
(value 0 1)
(value 1 3)
";

/// A route of these steps, with this start and so many places.
fn route(word: &str, places: u64, start: &str, steps: &[String]) -> String {
    format!("({word} {places})\n(start{start})\n{}", steps.concat())
}

/// The slice of the job that moves from the route to itself.
fn slice_of(places: u64, start: &str, steps: &[String], done: &[u64]) -> Slice {
    let (old, new) = both(places, start, &steps.concat());
    slice(&facts(&old, &new, done)).unwrap()
}

fn table(rows: &[&[usize]]) -> Vec<Occurrences> {
    let row = |row: &&[usize]| row.iter().copied().collect();
    rows.iter().map(row).collect()
}

#[test]
fn the_racing_branch_after_its_shrink_test() {
    let done = [10, 20, 30];
    lists(&old(), &untested(), &done, "(refused 11 14)\n");
    lists(&old(), &tested_first(), &done, MOVED_WITH_THE_TEST);
    let cruising = MOVED_WITH_THE_TEST.replace("(value 1 3)", "(value 2 3)");
    lists(&old(), &tested_first(), &[10, 20, 40], &cruising);
}

/// No branch is taken yet, so nothing hangs on the test.
#[test]
fn before_the_branch() {
    let listing = "(moved (kept 1) (dropped 1))\n(order 1)\n(marking 1)\n(value 0 1)\n";
    lists(&old(), &untested(), &[10, 20], listing);
}

/// Without 40 one step takes from place 2.
#[test]
fn a_place_with_one_taker() {
    let without = |route: &str| {
        let lines = route.split_inclusive('\n');
        let others = lines.filter(|line| !line.starts_with("(step 40"));
        others.collect::<String>()
    };
    let listing = "\
(moved (kept 2) (dropped 1))
(after 3 1)
(order 1 3)
(marking 2)
(value 0 1)
(value 1 3)
";
    lists(
        &without(&old()),
        &without(&untested()),
        &[10, 20, 30],
        listing,
    );
    // On the new route two steps take from one place, which has no say.
    lists(&without(&old()), &untested(), &[10, 20, 30], listing);
    // The other way round the test is needed.
    lists(
        &old(),
        &without(&untested()),
        &[10, 20, 30],
        "(refused 11 13)\n",
    );
    let tested_first = without(&tested_first());
    lists(&old(), &tested_first, &[10, 20, 30], MOVED_WITH_THE_TEST);
}

/// 40 isn't done, nor can it ever be: no token comes to place 4.
#[test]
fn a_taker_that_can_never_fire() {
    let old = old()
        .replace("(old 4)", "(old 5)")
        .replace("(step 40 (in 2)", "(step 40 (in 2 4)");
    lists(&old, &untested(), &[10, 20, 30], "(refused 11 14)\n");
}

/// 20 puts on place 2 twice; the token that 40 takes is the second one. 30 leads back.
#[test]
fn a_loop_through_the_shared_place() {
    let steps = [
        step(10, " 0", " 1", "", " 0"),
        step(20, " 1", " 2", "", ""),
        step(30, " 2", " 1", "", ""),
        step(40, " 2", " 3", "", " 1"),
    ];
    let old = route("old", 4, " 0", &steps);
    let mut row = steps.clone();
    row[2] = String::new();
    let new = route("new", 4, " 0", &row);
    let done = [10, 20, 30, 20, 40];
    let listing = "\
(moved (kept 3) (dropped 2))
(after 5 4)
(order 1 4 5)
(marking 3)
(value 0 1)
(value 1 5)
";
    lists(&old, &new, &done, listing);
    let slice = slice(&facts(&old, &new, &done)).unwrap();
    assert_eq!(slice.table, table(&[&[], &[], &[2], &[], &[4]]));
}

/// The same where 20 begins at a shared place too: 30 is needed that leads back, and all
/// of the first round for it.
#[test]
fn a_loop_through_two_shared_places() {
    let steps = [
        step(10, " 0", " 1", "", ""),
        step(20, " 1", " 2", "", ""),
        step(30, " 2", " 1", "", ""),
        step(40, " 2", " 3", "", " 1"),
        step(50, " 1", " 3", "", " 1"),
    ];
    let slice = slice_of(4, " 0", &steps, &[10, 20, 30, 20, 40]);
    assert_eq!(slice.kept, [1, 2, 3, 4, 5].into());
    assert_eq!(slice.table, table(&[&[], &[1], &[2], &[3], &[4]]));
}

/// 30 has place 2 both in and out: it takes the token that 20 put, and 20 stays its
/// putter for 40.
#[test]
fn a_step_with_the_shared_place_both_in_and_out() {
    let steps = |writes: &str| {
        let first = step(10, " 0", " 1", "", " 0");
        let test = step(20, " 1", " 2", "", "");
        let look = step(30, " 2", " 2", "", writes);
        [first, test, look, step(40, " 2", " 3", "", " 1")]
    };
    let rows = table(&[&[], &[], &[2], &[2], &[2]]);
    let silent = slice_of(4, " 0", &steps(""), &[10, 20, 30, 30, 40]);
    assert_eq!(silent.kept, [1, 2, 5].into());
    assert_eq!(silent.table, rows);
    // It needs 20 itself, where 40 isn't done.
    let written = slice_of(4, " 0", &steps(" 2"), &[10, 20, 30]);
    assert_eq!(written.kept, [1, 2, 3].into());
    assert_eq!(written.table, rows[..3]);
    // Without 40 place 2 has one taker.
    let alone = slice_of(3, " 0", &steps(" 2")[..3], &[10, 20, 30]);
    assert_eq!(alone.kept, [1, 3].into());
    // The new route does without 30.
    let (old, mut row) = (route("old", 4, " 0", &steps("")), steps(""));
    row[2] = String::new();
    let listing = "\
(moved (kept 3) (dropped 1))
(after 4 2)
(order 1 2 4)
(marking 3)
(value 0 1)
(value 1 4)
";
    lists(
        &old,
        &route("new", 4, " 0", &row),
        &[10, 20, 30, 40],
        listing,
    );
}

/// A start token has no putter; the next one on its place has. An in-and-out step before
/// it puts none.
#[test]
fn a_start_token() {
    let steps = [
        step(10, " 0", " 1", "", " 0"),
        step(20, " 0", " 1", "", " 1"),
        step(30, " 1", " 0", "", ""),
        step(40, " 0", " 0", "", ""),
    ];
    let slice = slice_of(2, " 0", &steps, &[40, 10, 30, 40, 20]);
    assert_eq!(slice.kept, [2, 3, 5].into());
    assert_eq!(slice.table, table(&[&[], &[], &[], &[3], &[3]]));
}

/// 30 is kept since it writes, 20 since 30 took its token, and 10 for 20's.
#[test]
fn needs_through_two_shared_places() {
    let steps = [
        step(10, " 0", " 1", "", ""),
        step(20, " 1", " 2", "", ""),
        step(30, " 2", " 3", "", " 0"),
        step(21, " 1", " 2", "", ""),
        step(31, " 2", " 3", "", ""),
    ];
    let slice = slice_of(4, " 0", &steps, &[10, 20, 30]);
    assert_eq!(slice.kept, [1, 2, 3].into());
    assert_eq!(slice.table, table(&[&[], &[1], &[2]]));
    // Down the other branch nothing is written, so nothing is kept.
    let other = slice_of(4, " 0", &steps, &[10, 20, 31]);
    assert_eq!(other.kept, [].into());
    assert_eq!(other.table, slice.table);
}

/// A putter needs what it reads, and a taker by data alone needs no tokens' putters.
#[test]
fn needs_by_data_and_by_tokens() {
    let steps = [
        step(10, " 0", " 1", "", " 5"),
        step(20, " 1", " 2", " 5", ""),
        step(15, " 4", " 5", "", " 5"),
        step(30, " 2", " 3", "", " 0"),
        step(40, " 2", " 3", "", ""),
    ];
    let slice = slice_of(6, " 0 4", &steps, &[10, 20, 15, 30]);
    assert_eq!(slice.kept, [1, 2, 3, 4].into());
    assert_eq!(slice.table, table(&[&[], &[1], &[1, 2], &[2]]));
    let other = slice_of(6, " 0 4", &steps, &[10, 20, 15, 40]);
    assert_eq!(other.kept, [3].into());
}

/// One putter on two shared places is one need; two putters are two.
#[test]
fn two_shared_places_taken_at_once() {
    let takers = [
        step(30, " 2 3", " 4", "", " 0"),
        step(40, " 2 3", " 4", "", " 0"),
    ];
    let one = [&[step(10, " 0 1", " 2 3", "", "")], &takers[..]].concat();
    let slice = slice_of(5, " 0 1", &one, &[10, 30]);
    assert_eq!(slice.kept, [1, 2].into());
    assert_eq!(slice.table, table(&[&[], &[1]]));
    let two = [step(10, " 0", " 2", "", ""), step(20, " 1", " 3", "", "")];
    let slice = slice_of(5, " 0 1", &[&two, &takers[..]].concat(), &[20, 10, 40]);
    assert_eq!(slice.kept, [1, 2, 3].into());
    assert_eq!(slice.table, table(&[&[], &[], &[1, 2]]));
}

/// 30 cuts and writes nothing; it is kept, and so is the test before it.
#[test]
fn a_cut_down_the_branch() {
    let steps = [
        step(20, " 0", " 1", "", ""),
        cut(30, " 1", " 2", "", ""),
        step(40, " 1", " 2", "", ""),
    ];
    let slice = slice_of(3, " 0", &steps, &[20, 30]);
    assert_eq!(slice.kept, [1, 2].into());
    assert_eq!(slice.table, table(&[&[], &[1]]));
    assert_eq!(slice_of(3, " 0", &steps, &[20, 40]).kept, [].into());
}

/// 98 has nothing to do with the others and isn't on the new route. 10 and 20 go round,
/// over places that 11 and 21 take from too, until 30 or 31 writes.
fn rounds(count: usize) -> (String, String, Vec<u64>) {
    let ring = [
        step(10, " 0", " 1", "", ""),
        step(11, " 0", " 1", "", ""),
        step(20, " 1", " 0", "", ""),
        step(21, " 1", " 0", "", ""),
        step(30, " 1", " 2", "", " 0"),
        step(31, " 0", " 2", "", " 0"),
    ];
    let aside = [step(98, " 3", " 3", "", "")];
    let old = route("old", 4, " 0 3", &[&ring[..], &aside].concat());
    let mut done = vec![98];
    done.extend([10, 20].iter().cycle().take(count - 1));
    done.push(if count.is_multiple_of(2) { 30 } else { 31 });
    (old, route("new", 3, " 0", &ring), done)
}

#[test]
fn sixteen_kept_for_their_tokens_and_seventeen() {
    let (old, new, done) = rounds(16);
    let after: String = (3..=17)
        .map(|o| format!("(after {o} {})\n", o - 1))
        .collect();
    let order: String = (2..=17).map(|o| format!(" {o}")).collect();
    let rest = format!("(order{order})\n(marking 2)\n(value 0 17)\n");
    let listing = format!("(moved (kept 16) (dropped 1))\n{after}{rest}");
    lists(&old, &new, &done, &listing);
    let (old, new, done) = rounds(17);
    refused(&sheet(&old, &new, &done), 10, 18);
}

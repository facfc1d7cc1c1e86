//! Cloth that is cut stays cut (02, A.4), worked by hand: what is kept, in which
//! order, and where the mark differs.

use crate::common::{both, cut, facts, lists, refusal, step};
use reference::fit::try_order;
use reference::judge::{judge, WORK};
use reference::sheet::MARK;
use reference::slice::slice;

/// A step: its name, what it reads and writes, and whether it is marked.
type Line = (u64, &'static str, &'static str, bool);

fn plain(name: u64, reads: &'static str, writes: &'static str) -> Line {
    (name, reads, writes, false)
}

fn marked(name: u64, reads: &'static str, writes: &'static str) -> Line {
    (name, reads, writes, true)
}

/// Steps in a row, each from its place to the next.
fn row(word: &str, steps: &[Line]) -> String {
    let mut text = format!("({word} {})\n(start 0)\n", steps.len() + 1);
    for (place, &(name, reads, writes, marked)) in steps.iter().enumerate() {
        let line = if marked { cut } else { step };
        let (ins, outs) = (format!(" {place}"), format!(" {}", place + 1));
        text += &line(name, &ins, &outs, reads, writes);
    }
    text
}

fn unmarked(route: &str) -> String {
    route.replace(MARK, "")
}

/// 20 cuts a panel and writes nothing. On the new route it stands after 30.
#[test]
fn a_panel_that_would_have_been_cut_twice() {
    let (ten, thirty) = (plain(10, "", " 0"), plain(30, " 0", " 1"));
    let twenty = marked(20, "", "");
    let old = row("old", &[ten, twenty, thirty]);
    let new = row("new", &[ten, thirty, twenty]);
    let listing = "\
(moved (kept 3) (dropped 0))
(after 3 1)
(order 1 3 2)
(marking 3)
(value 0 1)
(value 1 3)
";
    lists(&old, &new, &[10, 20, 30], listing);
    // Before 30 is done the panel is cut, and on the new route it can't be yet.
    lists(&old, &new, &[10, 20], "(refused 13 11)\n");
    // Without the mark the job stands where 20 is still to be done.
    let [old, new] = [&old, &new].map(|route| unmarked(route));
    let listing = "\
(moved (kept 2) (dropped 1))
(after 3 1)
(order 1 3)
(marking 2)
(value 0 1)
(value 1 3)
";
    lists(&old, &new, &[10, 20, 30], listing);
    let listing = "(moved (kept 1) (dropped 1))\n(order 1)\n(marking 1)\n(value 0 1)\n";
    lists(&old, &new, &[10, 20], listing);
}

#[test]
fn two_cuts_in_the_other_order() {
    let (ten, twenty) = (marked(10, "", ""), marked(20, "", ""));
    let old = row("old", &[ten, twenty]);
    let new = row("new", &[twenty, ten]);
    lists(&old, &new, &[10, 20], "(refused 13 9)\n");
    let facts = facts(&old, &new, &[10, 20]);
    assert_eq!(try_order(&facts, &[2, 1]), Err(refusal(17, 1)));
    assert_eq!(try_order(&facts, &[1, 2]), Err(refusal(18, 1)));
    let slice = slice(&facts).unwrap();
    assert_eq!(slice.kept, [1, 2].into());
    assert_eq!(slice.table, [[].into(), [1].into()]);
}

/// Steps that share no variable: only two marks keep them from changing places.
#[test]
fn one_mark_orders_nothing() {
    let listing = "\
(moved (kept 2) (dropped 0))
(order 2 1)
(marking 2)
(value 0 1)
(value 1 2)
";
    for [first, second] in [[false, false], [false, true], [true, false], [true, true]] {
        let (ten, twenty) = ((10, "", " 0", first), (20, "", " 1", second));
        let old = row("old", &[ten, twenty]);
        let new = row("new", &[twenty, ten]);
        let both = first && second;
        let expected = if both { "(refused 13 9)\n" } else { listing };
        lists(&old, &new, &[10, 20], expected);
    }
}

/// Each cut comes after all earlier ones, also where another stands between.
#[test]
fn after_lines_of_cuts() {
    let steps = [
        marked(10, "", ""),
        plain(20, "", ""),
        marked(30, "", " 0"),
        plain(40, " 0", " 1"),
        marked(50, "", ""),
    ];
    let listing = "\
(moved (kept 5) (dropped 0))
(after 3 1)
(after 4 3)
(after 5 1 3)
(order 1 2 3 4 5)
(marking 5)
(value 0 3)
(value 1 4)
";
    let done = [10, 20, 30, 40, 50];
    lists(&row("old", &steps), &row("new", &steps), &done, listing);
}

/// 12: a kept one that is marked in one route only, whether it writes or not.
#[test]
fn a_kept_one_with_another_mark() {
    for writes in ["", " 0"] {
        let old = row("old", &[plain(10, "", " 1"), marked(20, "", writes)]);
        let new = row("new", &[plain(10, "", " 1"), plain(20, "", writes)]);
        lists(&old, &new, &[10, 20], "(refused 12 11)\n");
        let tried = try_order(&facts(&old, &new, &[10, 20]), &[1, 2]);
        assert_eq!(tried, Err(refusal(12, 11)));
    }
    let old = row("old", &[plain(10, "", " 1"), plain(20, "", " 0")]);
    let new = row("new", &[plain(10, "", " 1"), marked(20, "", " 0")]);
    lists(&old, &new, &[10, 20], "(refused 12 11)\n");
}

/// 20 writes nothing and isn't marked in the old route, so it isn't kept; but it is
/// marked in the new one, so the whole list isn't straight.
#[test]
fn another_mark_stops_straight_replay() {
    let (ten, twenty) = (plain(10, "", " 0"), plain(20, "", ""));
    let old = row("old", &[ten, twenty]);
    let straight = "(moved (kept 2) (dropped 0))\n(order 1 2)\n(marking 2)\n(value 0 1)\n";
    lists(&old, &row("new", &[ten, twenty]), &[10, 20], straight);
    let new = row("new", &[ten, marked(20, "", "")]);
    let searched = "(moved (kept 1) (dropped 1))\n(order 1)\n(marking 1)\n(value 0 1)\n";
    lists(&old, &new, &[10, 20], searched);
    let facts = facts(&old, &new, &[10, 20]);
    assert_eq!(try_order(&facts, &[1, 2]), Err(refusal(16, 2)));
    let mut work = [9; WORK];
    assert!(judge(&facts, &mut work).is_ok());
    assert_eq!(work, [0; WORK]);
}

/// 30 cuts by 5, which 20 wrote from 4, which 10 wrote. Both are written again, so
/// only the cut needs 20, and only 20 needs 10. 60 is on the old route only.
#[test]
fn what_a_cut_needs() {
    let (ten, twenty) = (plain(10, "", " 4"), plain(20, " 4", " 5"));
    let (forty, fifty) = (plain(40, "", " 4"), plain(50, "", " 5"));
    let (thirty, sixty) = (marked(30, " 5", ""), plain(60, "", ""));
    let old = row("old", &[ten, twenty, sixty, thirty, forty, fifty]);
    let new = row("new", &[ten, twenty, thirty, forty, fifty]);
    let done = [10, 20, 60, 30, 40, 50];
    let listing = "\
(moved (kept 5) (dropped 1))
(after 2 1)
(after 4 2)
(after 5 1 2)
(after 6 2 4)
(order 1 2 4 5 6)
(marking 5)
(value 4 5)
(value 5 6)
";
    lists(&old, &new, &done, listing);
    let kept = |old: &str, new: &str| slice(&facts(old, new, &done)).unwrap().kept;
    assert_eq!(kept(&old, &new), [1, 2, 4, 5, 6].into());
    // The old route's mark decides.
    assert_eq!(kept(&old, &unmarked(&new)), [1, 2, 4, 5, 6].into());
    assert_eq!(kept(&unmarked(&old), &new), [5, 6].into());
    lists(&unmarked(&old), &unmarked(&new), &done, "(refused 13 16)\n");
}

/// 20 cuts by a blank, which it doesn't need anybody for.
#[test]
fn a_cut_that_reads_a_blank() {
    let (ten, twenty, thirty) = (plain(10, "", ""), marked(20, " 3", ""), plain(30, "", " 3"));
    let old = row("old", &[ten, twenty, thirty]);
    let new = row("new", &[twenty, thirty]);
    let listing = "\
(moved (kept 2) (dropped 1))
(after 3 2)
(order 2 3)
(marking 2)
(value 3 3)
";
    lists(&old, &new, &[10, 20, 30], listing);
}

#[test]
fn a_cut_that_the_new_route_lacks() {
    let (ten, twenty) = (plain(10, "", " 0"), marked(20, "", ""));
    let old = row("old", &[ten, twenty]);
    let new = row("new", &[ten, marked(30, "", "")]);
    lists(&old, &new, &[10, 20], "(refused 11 11)\n");
    // Kept in turn: the cut's 11 goes before a later one's 12.
    let old = row("old", &[twenty, ten]);
    let new = row("new", &[marked(10, "", " 0"), marked(30, "", "")]);
    lists(&old, &new, &[20, 10], "(refused 11 10)\n");
}

/// 99, then so many cuts in a row that write nothing; the new route lacks 99.
fn cuts(count: u64) -> (String, String, Vec<u64>) {
    let cuts: Vec<Line> = (1..=count).map(|name| marked(name, "", "")).collect();
    let all = [vec![plain(99, "", "")], cuts.clone()].concat();
    let done = all.iter().map(|line| line.0).collect();
    (row("old", &all), row("new", &cuts), done)
}

#[test]
fn sixteen_kept_by_their_marks_and_seventeen() {
    let (old, new, done) = cuts(16);
    let all = |last: usize| (2..=last).map(|o| format!(" {o}")).collect::<String>();
    let after = (3..=17).map(|o| format!("(after {o}{})\n", all(o - 1)));
    let after: String = after.collect();
    let listing = format!(
        "(moved (kept 16) (dropped 1))\n{after}(order{})\n(marking 16)\n",
        all(17)
    );
    lists(&old, &new, &done, &listing);
    let (old, new, done) = cuts(17);
    lists(&old, &new, &done, "(refused 10 40)\n");
    // Without marks nothing is kept.
    let [old, new] = [&old, &new].map(|route| unmarked(route));
    let listing = "(moved (kept 0) (dropped 18))\n(order)\n(marking 0)\n";
    lists(&old, &new, &done, listing);
}

/// A straight job may have more cuts than 16.
#[test]
fn seventeen_cuts_move_straight() {
    let (old, _, done) = cuts(17);
    let facts = facts(&old, &old.replace("(old", "(new"), &done);
    let moved = judge(&facts, &mut [0; WORK]).unwrap();
    assert!(moved.straight);
    assert_eq!(moved.kept.len(), 18);
    assert_eq!(slice(&facts).unwrap().kept.len(), 17);
}

/// A step that is done twice is cut twice, the one time after the other.
#[test]
fn a_looped_cut() {
    let steps = step(10, " 0", " 1", "", "") + &cut(20, " 1", " 1", "", "");
    let (old, new) = both(2, " 0", &steps);
    let done = [10, 20, 20];
    let listing = "(moved (kept 3) (dropped 0))\n(after 3 2)\n(order 1 2 3)\n(marking 1)\n";
    lists(&old, &new, &done, listing);
    let facts = facts(&old, &new, &done);
    let slice = slice(&facts).unwrap();
    assert_eq!(slice.kept, [2, 3].into());
    assert_eq!(slice.table, [[].into(), [].into(), [2].into()]);
    assert_eq!(try_order(&facts, &[3, 2]), Err(refusal(17, 1)));
    assert_eq!(try_order(&facts, &[2, 3]), Err(refusal(18, 1)));
}

//! Orders of takers and putters (02, A.8), worked by hand: which pairs come one after
//! the other, and which stay free.

use crate::common::{facts, lists, refusal, step};
use reference::fit::try_order;

/// A step down or before a branch: its name, its in-places, its out-places, its writes.
type Line = (u64, &'static str, &'static str, &'static str);

fn route(word: &str, places: u64, start: &str, lines: &[Line]) -> String {
    let steps = lines.iter();
    let steps = steps.map(|(name, ins, outs, writes)| step(*name, ins, outs, "", writes));
    let steps: String = steps.collect();
    format!("({word} {places})\n(start{start})\n{steps}")
}

/// 10 puts a token on place 2, 30 takes it; 20 puts the next one there, 40 takes that.
const TWO_ROUNDS: [Line; 4] = [
    (10, " 0", " 2", ""),
    (30, " 2", " 3", " 0"),
    (20, " 1", " 2", ""),
    (40, " 2", " 4", " 1"),
];

/// These steps one after the other.
fn row(lines: &[Line]) -> String {
    let places = [" 0", " 1", " 2", " 3", " 4"];
    let at = |(place, line): (usize, &Line)| (line.0, places[place], places[place + 1], line.3);
    let lines: Vec<Line> = lines.iter().enumerate().map(at).collect();
    route("new", lines.len() as u64 + 1, " 0", &lines)
}

/// The new route asks for one order of the four. It moves where each putter stands before
/// its taker: two putters, an older putter and a later one, and a putter and an earlier
/// taker may change places.
#[test]
fn every_order_of_two_putters_and_their_takers() {
    let old = route("old", 5, " 0 1", &TWO_ROUNDS);
    let mut moved = Vec::new();
    let all = 1..=4;
    for first in all.clone() {
        for second in all.clone().filter(|&o| o != first) {
            for third in all.clone().filter(|&o| ![first, second].contains(&o)) {
                let order = [first, second, third, 10 - first - second - third];
                let at = |occurrence| order.iter().position(|&o| o == occurrence);
                let listing = if at(1) < at(2) && at(3) < at(4) {
                    moved.push(order);
                    in_order(order)
                } else {
                    "(refused 13 13)\n".to_string()
                };
                let new = row(&order.map(|o| TWO_ROUNDS[o - 1]));
                lists(&old, &new, &[10, 30, 20, 40], &listing);
            }
        }
    }
    assert!(moved.contains(&[3, 1, 2, 4]) && moved.contains(&[3, 4, 1, 2]));
    assert_eq!(moved.len(), 6);
}

fn in_order([one, two, three, four]: [usize; 4]) -> String {
    format!(
        "\
(moved (kept 4) (dropped 0))
(after 2 1)
(after 4 3)
(order {one} {two} {three} {four})
(marking 4)
(value 0 2)
(value 1 4)
"
    )
}

/// On the new route 20 and 30 go side by side, and 50 isn't on it. Only the pair keeps 30
/// from going first.
#[test]
fn a_taker_before_its_putter() {
    let old = [
        (10, " 0", " 1 4", " 0"),
        (20, " 1", " 2", ""),
        (30, " 2", " 3", " 1"),
        (40, " 2", " 3", ""),
        (50, " 4", " 5", ""),
    ];
    let old = route("old", 6, " 0", &old);
    let beside = [
        (10, " 0", " 1 2", " 0"),
        (20, " 1", " 3", ""),
        (30, " 2", " 4", " 1"),
    ];
    let new = route("new", 5, " 0", &beside);
    let done = [10, 50, 20, 30];
    let listing = "\
(moved (kept 3) (dropped 1))
(after 4 3)
(order 1 3 4)
(marking 3 4)
(value 0 1)
(value 1 4)
";
    lists(&old, &new, &done, listing);
    let facts = facts(&old, &new, &done);
    assert_eq!(try_order(&facts, &[1, 3, 4]), Ok([3, 4].into()));
    assert_eq!(try_order(&facts, &[3, 1, 4]), Err(refusal(18, 1)));
    assert_eq!(try_order(&facts, &[1, 4, 3]), Err(refusal(17, 2)));
    assert_eq!(try_order(&facts, &[1, 4]), Err(refusal(16, 3)));
    assert_eq!(try_order(&facts, &[1, 2, 3, 4]), Err(refusal(16, 2)));
    let race_first = [
        (10, " 0", " 1", " 0"),
        (30, " 1", " 2", " 1"),
        (20, " 2", " 3", ""),
    ];
    let new = route("new", 4, " 0", &race_first);
    lists(&old, &new, &done, "(refused 13 13)\n");
}

/// A straight answer shows the pairs over all occurrences, also where the slice keeps
/// neither of the two; whether a list is straight doesn't hang on them.
#[test]
fn pairs_in_a_straight_answer() {
    let lines = [
        (10, " 0", " 1", " 0"),
        (20, " 1", " 2", ""),
        (30, " 2", " 3", ""),
        (40, " 2", " 3", " 1"),
    ];
    let (old, new) = (route("old", 4, " 0", &lines), route("new", 4, " 0", &lines));
    let listing = "\
(moved (kept 3) (dropped 0))
(after 3 2)
(order 1 2 3)
(marking 3)
(value 0 1)
";
    lists(&old, &new, &[10, 20, 30], listing);
    let facts = facts(&old, &new, &[10, 20, 30]);
    assert_eq!(try_order(&facts, &[1, 2, 3]), Ok([3].into()));
    assert_eq!(try_order(&facts, &[1]), Ok([1].into()));
    assert_eq!(try_order(&facts, &[1, 3, 2]), Err(refusal(16, 2)));
}

/// 12: the putter that is kept for its token reads something else on the new route, or
/// writes where it wrote nothing.
#[test]
fn a_putter_that_differs_on_the_new_route() {
    let lines = [
        (10, " 0", " 1", " 0"),
        (20, " 1", " 2", ""),
        (30, " 2", " 3", " 1"),
        (40, " 2", " 3", ""),
    ];
    let old = route("old", 4, " 0", &lines);
    let new = route("new", 4, " 0", &lines);
    for [same, other] in [
        ["(out 2) (read)", "(out 2) (read 0)"],
        ["(out 2) (read) (write)", "(out 2) (read) (write 0)"],
    ] {
        let new = new.replacen(same, other, 1);
        lists(&old, &new, &[10, 20, 30], "(refused 12 15)\n");
        // Nobody has taken its token yet.
        let kept_one = "(moved (kept 1) (dropped 1))\n(order 1)\n(marking 1)\n(value 0 1)\n";
        lists(&old, &new, &[10, 20], kept_one);
    }
}

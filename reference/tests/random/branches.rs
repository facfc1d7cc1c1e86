//! Branches taken (02, A.8): how often random sheets meet them, and what they change.

use crate::for_each_sheet;
use crate::kinds::Kinds;
use crate::kinds_of_branches::{add, only_pairs_forbid};
use reference::fit::try_order;
use reference::random::orders;

#[test]
fn sheets_meet_branches() {
    let mut kinds = Kinds::default();
    for_each_sheet("branches", &mut |facts, _| add(&mut kinds, facts));
    kinds.finish(5);
}

#[test]
fn orders_meet_branches() {
    let mut kinds = Kinds::default();
    for_each_sheet("orders and branches", &mut |facts, dice| {
        for _ in 0..3 {
            let order = orders::order(facts, dice);
            let position = match try_order(facts, &order) {
                Err(refusal) if refusal.number == 17 => refusal.second,
                _ => continue,
            };
            let by_pairs = only_pairs_forbid(facts, &order, position);
            kinds.add(by_pairs, "17 by pairs alone");
            kinds.add(!by_pairs, "17 by data or marks");
        }
    });
    kinds.finish(100);
}

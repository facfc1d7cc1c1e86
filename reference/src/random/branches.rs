//! Jobs that take branches (02, A.8): steps that write nothing put tokens where two or more
//! steps begin.

use super::block::Kind;
use super::dice::Dice;
use super::jobs::waits;
use super::plan::Plan;
use super::{change_starts, redraw, run_at_random};
use crate::sheet::{Route, Sheet, Step};

/// Steps that put tokens on one place in turn, each from a start place of its own, and
/// steps that take them from there. On the new route no two take from one place: they go
/// one after the other or side by side.
pub fn handing(dice: &mut Dice) -> Sheet {
    let count = dice.from_to(2, 4) as u64;
    let hand = 2 * count;
    let silent = dice.chance(70);
    let step = |at: u64| Step {
        name: 10 + at,
        ins: vec![if at < count { at } else { hand }],
        outs: vec![if at < count { hand } else { at }],
        reads: vec![],
        writes: if at < count && silent {
            vec![]
        } else {
            vec![at]
        },
        cloth: false,
    };
    let old = Route {
        places: hand + 1,
        start: (0..count).collect(),
        steps: (0..hand).map(step).collect(),
    };
    let done = run_at_random(&old, hand as usize, dice);
    let order = shuffled(&done, dice);
    let new = if dice.chance(45) {
        in_turn(&old, &order)
    } else {
        beside(&old, &order, dice)
    };
    Sheet { old, new, done }
}

/// The names in any order, most often each putter before its taker.
fn shuffled(done: &[u64], dice: &mut Dice) -> Vec<u64> {
    let mut order = done.to_vec();
    dice.shuffle(&mut order);
    for pair in done.chunks(2) {
        let at: Vec<usize> = (0..order.len())
            .filter(|&at| pair.contains(&order[at]))
            .collect();
        if order[at[0]] != pair[0] && dice.chance(85) {
            order.swap(at[0], at[1]);
        }
    }
    order
}

/// These steps of the route, one after the other.
fn in_turn(route: &Route, order: &[u64]) -> Route {
    let step = |(name, place): (&u64, u64)| Step {
        ins: vec![place],
        outs: vec![place + 1],
        ..route.step(*name).expect("a step of the route").clone()
    };
    Route {
        places: order.len() as u64 + 1,
        start: vec![0],
        steps: order.iter().zip(0..).map(step).collect(),
    }
}

/// These steps side by side; some wait for the one before them in this order.
fn beside(route: &Route, order: &[u64], dice: &mut Dice) -> Route {
    let count = order.len() as u64;
    let mut new = in_turn(route, order);
    for (step, place) in new.steps.iter_mut().zip(0..) {
        step.outs = vec![count + place];
        if place > 0 && dice.chance(35) {
            waits(step, count + place - 1);
        }
    }
    Route {
        places: 2 * count,
        start: (0..count).collect(),
        ..new
    }
}

/// Branches all the way: from each place two steps lead to the next, and only the last two
/// write. On the new route these two most often go first, and two others may be gone, or
/// one of them another.
pub fn all_the_way(dice: &mut Dice) -> Sheet {
    let count = [1, 1, 2, 3, 14, 15, 16, 17][dice.below(8)];
    let step = |at: u64| Step {
        name: 10 + at,
        ins: vec![],
        outs: vec![],
        reads: vec![],
        writes: if at / 2 == count {
            vec![at % 2]
        } else {
            vec![]
        },
        cloth: false,
    };
    let mut old = Route {
        places: count + 2,
        start: vec![0],
        steps: (0..2 * count + 2).map(step).collect(),
    };
    two_by_two(&mut old.steps);
    let length = count + 1 - u64::from(dice.chance(15));
    let done = run_at_random(&old, length as usize, dice);
    let mut new = old.clone();
    if dice.chance(75) {
        new.steps.rotate_right(2);
    }
    if dice.chance(35) {
        let at = 2 * dice.below(count as usize + 1);
        new.steps.drain(at..at + 2);
        new.places -= 1;
    }
    two_by_two(&mut new.steps);
    let other = done[dice.below(done.len())];
    for step in new.steps.iter_mut().filter(|step| step.name == other) {
        if dice.chance(40) {
            step.writes = vec![0];
        }
    }
    Sheet { old, new, done }
}

/// Two of the steps lead from each place to the next.
fn two_by_two(steps: &mut [Step]) {
    for (step, at) in steps.iter_mut().zip(0..) {
        (step.ins, step.outs) = (vec![at / 2], vec![at / 2 + 1]);
    }
}

/// A job on a plan of branches.
pub fn job(dice: &mut Dice) -> Sheet {
    let (mut plan, lengths) = if dice.chance(70) {
        (Plan::branching(dice), [2, 3, 4, 5, 6, 8, 12, 16])
    } else {
        (Plan::ring(dice), [3, 6, 12, 18, 20, 22, 24, 40])
    };
    let mut old = plan.draw(dice);
    if dice.chance(40) {
        stand_alone(&mut plan);
    }
    redraw_branches(&mut plan, dice);
    let mut new = plan.draw(dice);
    change_starts(&mut old, &mut new, dice);
    let done = run_at_random(&old, lengths[dice.below(8)], dice);
    Sheet { old, new, done }
}

/// Of what stands side by side the last part stays.
fn stand_alone(plan: &mut Plan) {
    if plan.tree.kind == Kind::Parallel {
        plan.tree.parts.drain(..plan.tree.parts.len() - 1);
    }
}

/// Steps that have nothing to do with each other change places or stand side by side, one
/// that writes nothing may be gone or another, or a branch gone.
fn redraw_branches(plan: &mut Plan, dice: &mut Dice) {
    match dice.below(11) {
        0..=3 => redraw::reorder(plan, dice),
        4..=5 => redraw::drop_silent(plan, dice),
        6..=7 => redraw::part(plan, dice),
        8 => redraw::change_branches(plan, dice),
        9 => redraw::redraw(plan, dice),
        _ => {}
    }
    match dice.below(3) {
        0 => redraw::drop_silent(plan, dice),
        1 => redraw::change_silent(plan, dice),
        _ => {}
    }
    plan.mend(dice);
}

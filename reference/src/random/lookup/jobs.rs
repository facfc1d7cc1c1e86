//! Jobs for look-ups: done lists that follow the old route's lines, fall, leap and
//! repeat, and new routes that lack some of their names or have other lines first.

use crate::random::dice::Dice;
use crate::random::plan::Plan;
use crate::random::records::{add_past_len, any, Facts};
use crate::random::{self, jobs, names, redraw, run_at_random};
use crate::script::writing;
use crate::sheet::{Route, Sheet, Step};
use std::cmp::Reverse;

pub(super) fn operation(dice: &mut Dice) -> String {
    let mut facts = Facts::of(&job(dice));
    if dice.chance(10) {
        add_past_len(&mut facts.old, dice);
        add_past_len(&mut facts.new, dice);
    }
    if dice.chance(10) {
        facts.spoil(dice);
    }
    writing::comparisons(facts.text(false))
}

/// A job that most often runs.
pub fn job(dice: &mut Dice) -> Sheet {
    let mut job = match dice.below(10) {
        0..=4 => in_any_order(dice),
        5 => lines_moved(looping(dice), dice),
        6..=7 => lines_moved(random::sheet(dice), dice),
        _ => lines_moved(jobs::job(dice), dice),
    };
    if dice.chance(25) {
        rename_some(&mut job.new, dice);
    }
    job
}

/// Steps done in any order, over and over. The new route lacks some of them, or has
/// its lines in another order.
fn in_any_order(dice: &mut Dice) -> Sheet {
    let old = free_route(dice);
    let done = walk(&old, dice);
    let mut new = old.clone();
    let lacks = any(&[0, 0, 10, 40, 90], dice);
    let stays = |step: &Step| opens(step) || !dice.chance(lacks);
    new.steps.retain(stays);
    put_in_order(&mut new, &done, dice);
    Sheet { old, new, done }
}

/// A route with a step that opens it, after which any other can be done at any time.
fn free_route(dice: &mut Dice) -> Route {
    let count = any(&[2, 2, 3, 4, 6, 9, 30, 63, 64], dice);
    let mut taken = Vec::new();
    for _ in 0..count {
        taken.push(names::fresh(&taken, dice));
    }
    let step = |&name: &u64| Step {
        name,
        ins: vec![1],
        outs: vec![1],
        reads: vec![],
        writes: vec![],
        cloth: false,
    };
    let mut steps: Vec<Step> = taken.iter().map(step).collect();
    steps[dice.below(count)].ins = vec![0];
    Route {
        places: 2,
        start: vec![0],
        steps,
    }
}

fn opens(step: &Step) -> bool {
    step.ins == [0]
}

/// The step that opens, then others by a habit: each the one just below the last,
/// the one just above, the same again, the next but one, or any.
fn walk(route: &Route, dice: &mut Dice) -> Vec<u64> {
    let (steps, count) = (&route.steps, route.steps.len());
    let habit = any(&[Some(1), Some(count - 1), Some(0), Some(2), None], dice);
    let length = any(&[0, 1, 2, 3, 5, 9, 20, 64], dice);
    let mut at = steps.iter().position(opens).unwrap_or(0);
    let mut done = vec![steps[at].name];
    while done.len() < length {
        let leap = habit.filter(|_| dice.chance(85));
        at = (at + leap.unwrap_or_else(|| dice.below(count))) % count;
        if !opens(&steps[at]) {
            done.push(steps[at].name);
        }
    }
    done.truncate(length);
    done
}

/// A plan that loops, run for long and redrawn.
fn looping(dice: &mut Dice) -> Sheet {
    let mut plan = Plan::looping(dice);
    let old = plan.draw(dice);
    let length = any(&[5, 12, 30, 64], dice);
    let done = run_at_random(&old, length, dice);
    for _ in 0..dice.below(3) {
        redraw::redraw(&mut plan, dice);
    }
    let new = plan.draw(dice);
    Sheet { old, new, done }
}

/// The same job with the step lines of each route in any order.
fn lines_moved(mut job: Sheet, dice: &mut Dice) -> Sheet {
    put_in_order(&mut job.old, &job.done, dice);
    put_in_order(&mut job.new, &job.done, dice);
    job
}

/// Leaves the step lines as they are, turns them round or shuffles them, or puts
/// them as they are first done, or the other way round.
fn put_in_order(route: &mut Route, done: &[u64], dice: &mut Dice) {
    let steps = &mut route.steps;
    let first_done = |step: &Step| {
        let position = done.iter().position(|name| *name == step.name);
        position.unwrap_or(done.len())
    };
    match dice.below(10) {
        0..=2 => {}
        3..=4 => steps.sort_by_key(first_done),
        5 => steps.sort_by_key(|step| Reverse(first_done(step))),
        6 => steps.reverse(),
        _ => dice.shuffle(steps),
    }
}

/// One to three steps get other names, many of which end with the same bits.
fn rename_some(route: &mut Route, dice: &mut Dice) {
    for _ in 0..dice.from_to(1, 3) {
        let at = dice.below(route.steps.len());
        let name = names::other(route.steps[at].name, dice);
        if route.step(name).is_none() {
            route.steps[at].name = name;
        }
    }
}

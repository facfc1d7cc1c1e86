//! Random sheets: an old route drawn from a tree of blocks, a new route that is the old
//! one redrawn in small ways, a start for each, and a done list got by really running
//! the old one.
//! Random scripts: operations on such jobs, on jobs at the limits, and on wrong
//! records, sheets and orders; operations on shelves of such routes; look-ups; and
//! sheets that go between editions.

pub mod block;
pub mod branches;
pub mod cloth;
pub mod convert;
pub mod damage;
mod damage_start;
pub mod dice;
mod forks;
pub mod jobs;
pub mod lookup;
pub mod mistype;
pub mod names;
pub mod orders;
pub mod plan;
pub mod reads;
pub mod records;
pub mod redraw;
pub mod script;
pub mod shelf;
pub mod starts;

use crate::net;
use crate::sheet::{self, Route, Sheet};
use dice::Dice;
use plan::Plan;
pub use script::script;

/// The facts of a random sheet. Most of them reach judge.
pub fn sheet(dice: &mut Dice) -> Sheet {
    let mut sheet = match dice.below(100) {
        0..=11 => branches::job(dice),
        12..=16 => branches::handing(dice),
        17..=19 => branches::all_the_way(dice),
        _ => redrawn(dice),
    };
    match dice.below(100) {
        0..=7 => spoil(&mut sheet.done, dice),
        8..=10 => starts::change(&mut sheet.old, dice),
        11..=17 => mistype::job(&mut sheet, dice),
        _ => {}
    }
    sheet
}

/// A plan, redrawn in small ways.
fn redrawn(dice: &mut Dice) -> Sheet {
    let (plan, length) = plan_and_length(dice);
    let mut old = plan.draw(dice);
    if dice.chance(4) {
        redraw::change_a_place(&mut old, dice);
    }
    let mut redrawn = plan.clone();
    if dice.chance(57) {
        redraw::reorder(&mut redrawn, dice);
    }
    for _ in 0..[0, 1, 1, 1, 1, 2, 2, 3][dice.below(8)] {
        redraw::redraw(&mut redrawn, dice);
    }
    let mut new = redrawn.draw(dice);
    if dice.chance(4) {
        redraw::change_a_place(&mut new, dice);
    }
    change_starts(&mut old, &mut new, dice);
    let length = if dice.chance(60) {
        length
    } else {
        dice.below(length + 1)
    };
    let done = run_at_random(&old, length, dice);
    Sheet { old, new, done }
}

/// Some jobs have begun further on, and few routes have a start of another kind.
fn change_starts(old: &mut Route, new: &mut Route, dice: &mut Dice) {
    match dice.below(100) {
        0..=6 => starts::move_on([old, new], dice),
        7..=10 => starts::change(old, dice),
        11..=14 => starts::change(new, dice),
        15 => starts::take_away([old, new][dice.below(2)]),
        _ => {}
    }
}

/// A plan, and how long a done list on it may get.
fn plan_and_length(dice: &mut Dice) -> (Plan, usize) {
    match dice.below(100) {
        0..=7 => (Plan::looping(dice), dice.from_to(12, 64)),
        8..=16 => (Plan::round(dice), dice.from_to(4, 20)),
        17..=35 => (Plan::random(9, 14, dice), 14),
        36..=46 => (Plan::cutting(dice), 16),
        47..=56 => (Plan::branching(dice), dice.from_to(3, 16)),
        57..=60 => (Plan::ring(dice), dice.from_to(2, 30)),
        _ => (Plan::random(1, 7, dice), 9),
    }
}

/// The bytes of a random sheet, at times damaged.
pub fn bytes(dice: &mut Dice) -> Vec<u8> {
    let bytes = sheet::text(&sheet(dice)).into_bytes();
    if dice.chance(30) {
        damage::damage(&bytes, dice)
    } else {
        bytes
    }
}

/// Names of steps that fire in turn from the route's start, at most so many.
pub fn run_at_random(route: &Route, length: usize, dice: &mut Dice) -> Vec<u64> {
    let mut marking = net::start(route);
    let mut names = Vec::new();
    while names.len() < length {
        let steps = route.steps.iter();
        let ready: Vec<_> = steps.filter(|s| net::can_fire(&marking, s)).collect();
        if ready.is_empty() {
            break;
        }
        let step = ready[dice.below(ready.len())];
        names.push(step.name);
        if let Ok(next) = net::fire(&marking, step) {
            marking = next;
        }
    }
    names
}

/// Makes a done list that the old route may not run: a strange name, two
/// entries swapped, or one left out.
pub fn spoil(done: &mut Vec<u64>, dice: &mut Dice) {
    if done.is_empty() {
        return;
    }
    let at = dice.below(done.len());
    match dice.below(3) {
        0 => done[at] = names::other(done[at], dice),
        1 => {
            let other = dice.below(done.len());
            done.swap(at, other);
        }
        _ => {
            done.remove(at);
        }
    }
}

//! Sheets for both ways: what 01's layout can say, and what it just can't. They depart
//! from it in starts, names, marks, places and bytes, at times in several at once.

use crate::net;
use crate::random::dice::Dice;
use crate::random::records::{any, Facts};
use crate::random::{cloth, damage, jobs, mistype, names, starts};
use crate::sheet::{self, Route, Sheet, Step};
use crate::version::Version;

/// The bytes of a sheet of this version, right or wrong.
pub fn bytes(version: &Version, dice: &mut Dice) -> Vec<u8> {
    let mut facts = if dice.chance(95) {
        of_01(dice)
    } else {
        jobs::job(dice)
    };
    let share = any(&[50, 50, 50, 0, 0, 100], dice);
    for _ in 0..any(&[0, 0, 0, 0, 1, 1, 1, 2, 2, 3, 4], dice) {
        depart(&mut facts, version, share, dice);
    }
    match dice.below(100) {
        0..=7 => facts = spoiled(&facts, dice),
        8..=11 => overfill(&mut facts, dice),
        _ => {}
    }
    let text = sheet::text_by(&facts, version).into_bytes();
    if dice.chance(12) {
        damage::damage(&text, dice)
    } else {
        text
    }
}

/// The facts of a job that 01's layout can say, with the implied starts; few of them
/// are empty.
pub fn of_01(dice: &mut Dice) -> Sheet {
    let mut facts = jobs::job(dice);
    for _ in 0..5 {
        let begins = |route: &Route| !net::implied_start(route).is_empty();
        if begins(&facts.old) && begins(&facts.new) {
            break;
        }
        facts = jobs::job(dice);
    }
    names::fit_01(&mut facts, dice);
    cloth::clear(&mut facts);
    if dice.chance(10) {
        facts.done = any_done(dice);
    }
    imply(&mut facts.old);
    imply(&mut facts.new);
    facts
}

fn imply(route: &mut Route) {
    route.start = net::implied_start(route).into_iter().collect();
}

/// Names that may be of no step.
fn any_done(dice: &mut Dice) -> Vec<u64> {
    let count = any(&[0, 1, 3, 9, 63, 64], dice);
    (0..count)
        .map(|_| any(&[1, 10, 9_999, 65_534, 65_535], dice))
        .collect()
}

/// The facts with one or two things wrong, or at their limits.
fn spoiled(sheet: &Sheet, dice: &mut Dice) -> Sheet {
    let mut facts = Facts::of(sheet);
    for _ in 0..dice.from_to(1, 2) {
        facts.spoil(dice);
    }
    facts.sheet()
}

/// A 65th done line or step, a route with no step, or a name twice.
fn overfill(facts: &mut Sheet, dice: &mut Dice) {
    let kind = dice.below(5);
    let route = some_route(facts, 50, dice);
    match kind {
        0 => facts.done.resize(65, 65_535),
        1 => route.steps.clear(),
        2..=3 => some_step(route, dice).name = some_step(&mut route.clone(), dice).name,
        _ => {
            let last = some_step(route, dice).clone();
            let unused = (1..).filter(|&name| route.step(name).is_none());
            let names: Vec<u64> = unused.take(65 - route.steps.len()).collect();
            let more = names.into_iter().map(|name| Step {
                name,
                ..last.clone()
            });
            route.steps.extend(more);
        }
    }
}

/// One thing that 01's layout can't say, or nearly so, or that rows 6 and 7 refuse; or
/// one that only 23 would, which goes both ways. By 01's version a route that goes round
/// has no start, and few steps are marked. So many times in a hundred it is in the old
/// route.
fn depart(facts: &mut Sheet, version: &Version, share: usize, dice: &mut Dice) {
    let kind = dice.below(22);
    let route = some_route(facts, share, dice);
    match kind {
        0..=3 if version.start => other_start(route, dice),
        4..=5 if version.start => exchange_starts(facts, dice),
        0..=5 => jobs::close(route),
        6..=9 => lengthen_a_step(route, version, dice),
        10..=12 => lengthen_done(&mut facts.done, version, dice),
        13 => lengthen_everywhere(facts, version, dice),
        14..=15 if version.cloth => mark_a_step(route, version, dice),
        16 => mark_a_step(route, version, dice),
        14..=17 => {
            route.places = 64.min(route.places + 1);
            if dice.chance(25) {
                route.start.clear();
            }
        }
        18 => route.start.clear(),
        19..=20 => mistype::route(route, &[], dice),
        _ => {
            jobs::close(route);
            route.start.clear();
        }
    }
}

/// The old route, so many times in a hundred, or the new one.
fn some_route<'a>(facts: &'a mut Sheet, share: usize, dice: &mut Dice) -> &'a mut Route {
    if dice.chance(share) {
        &mut facts.old
    } else {
        &mut facts.new
    }
}

fn some_step<'a>(route: &'a mut Route, dice: &mut Dice) -> &'a mut Step {
    let at = dice.below(route.steps.len());
    &mut route.steps[at]
}

/// One begins where the other does, or they begin each where the other did; or both
/// begin elsewhere.
fn exchange_starts(facts: &mut Sheet, dice: &mut Dice) {
    let (old, new) = (&mut facts.old, &mut facts.new);
    match dice.below(4) {
        0 => new.start = old.start.clone(),
        1 => old.start = new.start.clone(),
        2 => std::mem::swap(&mut old.start, &mut new.start),
        _ => {
            other_start(old, dice);
            other_start(new, dice);
        }
    }
    for route in [old, new] {
        let places = route.places;
        route.start.retain(|&place| place < places);
    }
}

/// One place more or less, or a start of another kind.
fn other_start(route: &mut Route, dice: &mut Dice) {
    if dice.chance(50) {
        starts::change(route, dice);
        return;
    }
    let place = dice.roll() % route.places;
    match route.start.binary_search(&place) {
        Ok(at) => {
            route.start.remove(at);
        }
        Err(at) => route.start.insert(at, place),
    }
}

/// A name over 65,535, most often just so, or 65,535 itself; at times one that ends
/// with the same 16 bits. It has no more digits than the version's numbers.
fn long(name: u64, version: &Version, dice: &mut Dice) -> u64 {
    let alike = name % 65_536 + 65_536;
    let greatest = Version::PRESENT.greatest_name;
    let just_so = any(&[65_535, 65_535, 65_536, 65_536, 65_537], dice);
    let longer = any(&[99_999, 100_000, greatest, alike, alike], dice);
    let digits = version.most_digits as u32;
    any(&[just_so, just_so, longer], dice).min(10_u64.pow(digits) - 1)
}

fn lengthen_a_step(route: &mut Route, version: &Version, dice: &mut Dice) {
    let step = some_step(route, dice).clone();
    let name = long(step.name, version, dice);
    if route.step(name).is_none() {
        rename(route, step.name, name);
    }
}

/// A step is marked; few of these get a long name too.
fn mark_a_step(route: &mut Route, version: &Version, dice: &mut Dice) {
    let at = dice.below(route.steps.len());
    let name = long(route.steps[at].name, version, dice);
    route.steps[at].cloth = true;
    if dice.chance(45) && route.step(name).is_none() {
        route.steps[at].name = name;
    }
}

fn rename(route: &mut Route, from: u64, to: u64) {
    let steps = route.steps.iter_mut();
    steps
        .filter(|step| step.name == from)
        .for_each(|step| step.name = to);
}

/// One or two done names become long ones, or one more is done.
fn lengthen_done(done: &mut Vec<u64>, version: &Version, dice: &mut Dice) {
    if done.is_empty() || done.len() < 64 && dice.chance(25) {
        done.push(1);
    }
    for _ in 0..any(&[1, 1, 1, 2], dice) {
        let at = dice.below(done.len());
        done[at] = long(done[at], version, dice);
    }
}

/// A name of the old route becomes a long one wherever it stands.
fn lengthen_everywhere(facts: &mut Sheet, version: &Version, dice: &mut Dice) {
    let name = some_step(&mut facts.old, dice).name;
    let to = long(name, version, dice);
    if facts.old.step(to).or(facts.new.step(to)).is_none() {
        rename(&mut facts.old, name, to);
        rename(&mut facts.new, name, to);
        let done = facts.done.iter_mut().filter(|done| **done == name);
        done.for_each(|done| *done = to);
    }
}

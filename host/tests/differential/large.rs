//! Sheets up to the limits: a random sheet with one more net beside both of its
//! routes, the places numbered anew. Places, steps, done lines and lists get
//! long, while most often no more are kept than the second program can search.

use reference::random::dice::Dice;
use reference::random::{self, names::any_name, run_at_random, starts};
use reference::reads::is_written;
use reference::sheet::{Route, Sheet, Step};
use std::collections::BTreeSet;

/// The facts of such a sheet.
pub fn sheet(dice: &mut Dice) -> Sheet {
    let mut facts = random::sheet(dice);
    let beside = net_beside(&facts, dice);
    for route in [&mut facts.old, &mut facts.new] {
        put_beside(route, &beside);
        if dice.chance(4) {
            starts::change(route, dice);
        }
        number_anew(route, dice);
    }
    if dice.chance(80) {
        let length = dice.below(65);
        facts.done = run_at_random(&facts.old, length, dice);
    }
    facts
}

/// A net for which both routes have room. While there are places left its steps
/// go from places of their own to places of their own; the others go from where
/// the one before ended back to there.
fn net_beside(facts: &Sheet, dice: &mut Dice) -> Route {
    let room = 64 - facts.old.places.max(facts.new.places);
    let most = [1, 2, 8][dice.below(3)];
    let mut net = Route {
        places: 0,
        start: Vec::new(),
        steps: Vec::new(),
    };
    for name in fresh_names(facts, dice) {
        let middle = net.places + dice.from_to(1, most) as u64;
        let end = middle + dice.from_to(1, most) as u64;
        let (ins, outs) = match net.steps.last() {
            _ if end <= room => ((net.places..middle).collect(), (middle..end).collect()),
            Some(last) => (last.outs.clone(), last.outs.clone()),
            None => break,
        };
        if end <= room {
            net.places = end;
            net.start.extend(&ins);
        }
        net.steps.push(Step {
            name,
            ins,
            outs,
            reads: some_variables(10, dice),
            writes: some_variables(4, dice),
            cloth: dice.chance(2),
        });
    }
    forget(&mut net, facts);
    net
}

/// What neither the net nor both routes write is read no more.
fn forget(net: &mut Route, facts: &Sheet) {
    let whole = net.clone();
    let written = |&variable: &u64| {
        let [net, old, new] = [&whole, &facts.old, &facts.new].map(|r| is_written(r, variable));
        net || old && new
    };
    let steps = net.steps.iter_mut();
    steps.for_each(|step| step.reads.retain(written));
}

/// Names that are in neither route, at most so many that 64 steps aren't passed.
fn fresh_names(facts: &Sheet, dice: &mut Dice) -> BTreeSet<u64> {
    let count = 64 - facts.old.steps.len().max(facts.new.steps.len());
    let names = (0..dice.below(count + 1)).map(|_| any_name(dice));
    let fresh = |name: &u64| facts.old.step(*name).is_none() && facts.new.step(*name).is_none();
    names.filter(fresh).collect()
}

/// No variables; so many times in a hundred, one to eight.
fn some_variables(percent: usize, dice: &mut Dice) -> Vec<u64> {
    let mut variables: Vec<u64> = (0..32).collect();
    dice.shuffle(&mut variables);
    let some = dice.chance(percent);
    variables.truncate(if some { dice.from_to(1, 8) } else { 0 });
    variables.sort();
    variables
}

/// Puts a net beside the route, on places of its own.
fn put_beside(route: &mut Route, net: &Route) {
    let before = route.places;
    let shift = |list: &[u64]| -> Vec<u64> { list.iter().map(|place| before + place).collect() };
    route.start.extend(shift(&net.start));
    let shifted = net.steps.iter().map(|step| Step {
        ins: shift(&step.ins),
        outs: shift(&step.outs),
        ..step.clone()
    });
    route.steps.extend(shifted);
    route.places += net.places;
}

/// Numbers the places anew, and lists the steps in another order.
fn number_anew(route: &mut Route, dice: &mut Dice) {
    let mut number: Vec<u64> = (0..route.places).collect();
    dice.shuffle(&mut number);
    let lists = route.steps.iter_mut();
    let lists = lists.flat_map(|step| [&mut step.ins, &mut step.outs]);
    for list in lists.chain([&mut route.start]) {
        let renumbered = list.iter().map(|&place| number[place as usize]);
        *list = renumbered.collect();
        list.sort();
    }
    dice.shuffle(&mut route.steps);
}

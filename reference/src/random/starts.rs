//! Starts: a plan's route begins where its tree does. Some begin elsewhere: where 01
//! would begin, where the route stands after some steps, anywhere or nowhere.

use super::dice::Dice;
use super::run_at_random;
use crate::net::{self, Marking};
use crate::sheet::Route;

/// Another start, of places that the route has.
pub fn change(route: &mut Route, dice: &mut Dice) {
    let place = dice.below(route.places as usize) as u64;
    let all = 0..route.places;
    let mut start = net::start(route);
    match dice.below(14) {
        0..=1 => start = net::implied_start(route),
        2..=4 => start = after(route, &some_steps(route, dice)),
        5 => start.extend([place]),
        6 => {
            start.pop_first();
        }
        7 => start = Marking::from([place]),
        8..=9 => start = all.collect(),
        10..=11 => start = all.filter(|_| dice.chance(50)).collect(),
        _ => start.clear(),
    }
    put(route, start);
}

/// Both begin where they stand after some steps of the first; those that the second
/// lacks, or can't do there, are left out.
pub fn move_on(routes: [&mut Route; 2], dice: &mut Dice) {
    let names = some_steps(routes[0], dice);
    for route in routes {
        let start = after(route, &names);
        put(route, start);
    }
}

/// No start, and a place more, which is in no step.
pub fn take_away(route: &mut Route) {
    route.places = 64.min(route.places + 1);
    route.start.clear();
}

fn put(route: &mut Route, start: Marking) {
    route.start = start.into_iter().collect();
}

/// A few steps that can be done, one at least if there is one.
fn some_steps(route: &Route, dice: &mut Dice) -> Vec<u64> {
    let count = dice.from_to(1, 2);
    run_at_random(route, count, dice)
}

/// Where the route stands after the steps of these names, as far as they can be done.
fn after(route: &Route, names: &[u64]) -> Marking {
    let mut marking = net::start(route);
    for name in names {
        let fired = route.step(*name).map(|step| net::fire(&marking, step));
        if let Some(Ok(next)) = fired {
            marking = next;
        }
    }
    marking
}

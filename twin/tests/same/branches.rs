//! Branches: small nets in which steps take from the same places, done over and over.

use crate::orders::same as same_order;
use crate::{same, same_in_all_slices, Seed};
use reference::judge::WORK;
use reference::print::listing_of;
use reference::random::{dice::mix, dice::Dice, orders::order, run_at_random};
use reference::sheet::{self, Route, Sheet, Step};

const SHEETS: u64 = 20_000;
const PLACES: usize = 5;

/// Whether it is kept only where a kept one needs its token.
fn is_silent(step: &Step) -> bool {
    step.writes.is_empty() && !step.cloth
}

/// One to three places.
fn places(dice: &mut Dice) -> Vec<u64> {
    let count = [1, 1, 1, 2, 2, 3][dice.below(6)];
    let mut some: Vec<u64> = (0..count).map(|_| dice.below(PLACES) as u64).collect();
    some.sort();
    some.dedup();
    some
}

/// Six steps, most of them silent. The first writes what the others read, and the last
/// puts to each place that no other has.
fn old_route(dice: &mut Dice) -> Route {
    let step = |name: u64| Step {
        name,
        ins: places(dice),
        outs: places(dice),
        reads: vec![0; usize::from(dice.chance(15))],
        writes: vec![name % 4; usize::from(dice.chance(30))],
        cloth: dice.chance(8),
    };
    let mut steps: Vec<Step> = (1..=6).map(step).collect();
    steps[0].writes = vec![0];
    let used = |place: &u64| {
        let lists = steps.iter().flat_map(|step| [&step.ins, &step.outs]);
        lists.flatten().any(|one| one == place)
    };
    let unused: Vec<u64> = (0..PLACES as u64).filter(|place| !used(place)).collect();
    steps[5].outs.extend(unused);
    steps[5].outs.sort();
    Route {
        places: PLACES as u64,
        start: places(dice),
        steps,
    }
}

/// The old route's steps, but for a silent one: each on a place of its own, or in a row,
/// or where they were with one of them elsewhere.
fn redrawn(old: &Route, dice: &mut Dice) -> Route {
    let mut new = old.clone();
    let goes = dice.below(new.steps.len());
    if is_silent(&new.steps[goes]) {
        new.steps.remove(goes);
    }
    let kind = dice.below(4);
    if kind == 0 {
        let at = dice.below(new.steps.len());
        new.steps[at].ins = places(dice);
        return new;
    }
    if kind == 1 {
        dice.shuffle(&mut new.steps);
    }
    let next = u64::from(kind == 1);
    for (step, at) in new.steps.iter_mut().zip(0..) {
        (step.ins, step.outs) = (vec![at], vec![at + next]);
    }
    let count = new.steps.len() as u64;
    new.places = count + next;
    new.start = (0..if kind == 1 { 1 } else { count }).collect();
    new
}

/// A job whose old net goes on for a while, most often.
fn job(dice: &mut Dice) -> Sheet {
    let length = [3, 6, 12, 64][dice.below(4)];
    let mut old = old_route(dice);
    let mut done = run_at_random(&old, length, dice);
    for _ in 0..20 {
        if done.len() > 2 {
            break;
        }
        old = old_route(dice);
        done = run_at_random(&old, length, dice);
    }
    let new = redrawn(&old, dice);
    Sheet { old, new, done }
}

/// Whether the listing gives an order that leaves some out and has a silent one.
fn keeps_a_silent_one(job: &Sheet, listing: &str) -> bool {
    let order = listing
        .lines()
        .find_map(|line| line.strip_prefix("(order "));
    let entries = order.unwrap_or("").trim_end_matches(')').split(' ');
    let names = entries.filter_map(|entry| job.done.get(entry.parse::<usize>().ok()? - 1));
    let mut steps = names.filter_map(|name| job.old.step(*name));
    !listing.contains("(dropped 0)") && steps.any(is_silent)
}

/// A silent step that is kept: it moves, and it is refused by 11 where the new route
/// lacks it; and orders tried on such jobs.
#[test]
fn on_small_nets() {
    let mut met = [0; 4];
    for number in 0..SHEETS {
        let _seed = Seed(number);
        let mut dice = Dice::new(mix(number));
        let job = job(&mut dice);
        let bytes = sheet::text(&job).into_bytes();
        same(&bytes, WORK, 16_384);
        if number % 20 == 0 {
            same_in_all_slices(&bytes);
        }
        let listing = listing_of(&bytes);
        met[0] += usize::from(keeps_a_silent_one(&job, &listing));
        met[1] += usize::from(listing.starts_with("(refused 11 "));
        match same_order(&bytes, &order(&job, &mut dice)) {
            0 => met[2] += 1,
            17 => met[3] += 1,
            _ => {}
        }
    }
    println!("moved with a silent one, 11, accepted, 17: {met:?}");
    assert!(met.iter().all(|&count| count > 200));
}

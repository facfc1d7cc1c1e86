//! Jobs for scripts: small nets that loop and branch, jobs with kept at and
//! over 16, done lists up to 64, routes at their limits, marks, other names and
//! starts, and twists that rows 6 to 12 refuse or that leave nothing to keep.

use super::dice::Dice;
use super::plan::Plan;
use super::{branches, cloth, mistype, names, reads, redraw, run_at_random, spoil, starts};
use crate::fit;
use crate::job::Job;
use crate::net;
use crate::sheet::{Route, Sheet, Step};

/// A job: right by the rows to 5, nearly always.
pub fn job(dice: &mut Dice) -> Sheet {
    let mut job = match dice.below(29) {
        0..=2 => super::sheet(dice),
        3..=6 => searched(dice),
        7 => unchanged(super::sheet(dice)),
        8..=10 => cutting(dice),
        11..=13 => round(dice),
        14..=15 => branches::job(dice),
        16..=17 => branches::handing(dice),
        18 => branches::all_the_way(dice),
        _ => {
            let job = of_a_kind(dice);
            cloth::marked(job, dice)
        }
    };
    if dice.chance(40) {
        names::rename(&mut job, dice);
    }
    if dice.chance(28) {
        twist(&mut job, dice);
    }
    if dice.chance(9) {
        mistype::job(&mut job, dice);
    }
    job
}

/// A job with no mark yet.
fn of_a_kind(dice: &mut Dice) -> Sheet {
    match dice.below(14) {
        0..=1 => tangled(dice),
        2..=4 => tiny(dice),
        5..=6 => chain(dice),
        7..=8 => building(dice),
        9..=11 => beside(dice),
        12 => all_started(dice),
        _ => crowded(dice),
    }
}

/// A job that gets as far as the search, with two or more kept, most often.
fn searched(dice: &mut Dice) -> Sheet {
    let gets_there = |sheet: &Sheet| {
        let searches = |job: Job| fit::check_kept(&job).is_ok() && !fit::moves_straight(&job);
        Job::of(sheet).is_ok_and(|job| job.kept.len() > 1 && searches(job))
    };
    let mut job = super::sheet(dice);
    for _ in 0..12 {
        if gets_there(&job) {
            break;
        }
        job = super::sheet(dice);
    }
    job
}

/// The job on a new route that is the old one: it moves straight.
fn unchanged(job: Sheet) -> Sheet {
    let new = job.old.clone();
    Sheet { new, ..job }
}

/// Panels that are cut. On the new route steps that have nothing to do with each
/// other change places, and one that writes nothing may be gone; or only a mark is
/// another.
fn cutting(dice: &mut Dice) -> Sheet {
    let mut plan = Plan::cutting(dice);
    let old = plan.draw(dice);
    let length = if dice.chance(70) { 17 } else { dice.below(12) };
    let done = run_at_random(&old, length, dice);
    if dice.chance(30) {
        let mut new = old.clone();
        change_mark(&mut new, dice);
        return Sheet { old, new, done };
    }
    redraw::reorder(&mut plan, dice);
    if dice.chance(60) {
        redraw::drop_silent(&mut plan, dice);
    }
    let new = plan.draw(dice);
    Sheet { old, new, done }
}

/// A route that goes round, gone round some times; the new one goes round too, with
/// little changed. At times the last round is wrong.
fn round(dice: &mut Dice) -> Sheet {
    let mut plan = Plan::round(dice);
    let old = plan.draw(dice);
    let length = [2, 5, 8, 13, 24, 40][dice.below(6)];
    let mut done = run_at_random(&old, length, dice);
    if done.len() > 4 && dice.chance(15) {
        done.remove(done.len() - 2);
    }
    match dice.below(3) {
        0 => {}
        1 => redraw::reorder(&mut plan, dice),
        _ => redraw::redraw(&mut plan, dice),
    }
    let new = plan.draw(dice);
    Sheet { old, new, done }
}

/// One to three entries below the bound.
fn some(bound: usize, dice: &mut Dice) -> Vec<u64> {
    let mut list: Vec<u64> = (0..dice.from_to(1, 3))
        .map(|_| dice.below(bound) as u64)
        .collect();
    list.sort();
    list.dedup();
    list
}

/// No entry, or one to three.
fn perhaps(bound: usize, dice: &mut Dice) -> Vec<u64> {
    if dice.chance(45) {
        vec![]
    } else {
        some(bound, dice)
    }
}

/// Whether each place is in a step, the start isn't empty, and what is read is written.
pub(super) fn opens(route: &Route) -> bool {
    let done = vec![];
    let (old, new) = (route.clone(), route.clone());
    net::run(&Sheet { old, new, done }).is_ok()
}

/// A route of a few places and steps with any places, data and start.
fn any_route(dice: &mut Dice) -> Route {
    let places = dice.from_to(1, 5);
    let count = dice.from_to(1, places + 1);
    let step = |name| Step {
        name: name as u64,
        ins: some(places, dice),
        outs: some(places, dice),
        reads: perhaps(3, dice),
        writes: perhaps(3, dice),
        cloth: false,
    };
    let steps = (1..=count).map(step).collect();
    let mut route = Route {
        places: places as u64,
        start: some(places, dice),
        steps,
    };
    let implied = net::implied_start(&route);
    if !implied.is_empty() && dice.chance(60) {
        route.start = implied.into_iter().collect();
    }
    reads::mend_route(&mut route, dice);
    route
}

/// A few places, and steps with any places and data; most open.
fn tiny(dice: &mut Dice) -> Sheet {
    let mut old = any_route(dice);
    let mut tries = 0;
    while !opens(&old) && tries < 60 {
        old = any_route(dice);
        tries += 1;
    }
    let length = dice.below(9);
    let done = run_at_random(&old, length, dice);
    let mut new = old.clone();
    for _ in 0..dice.below(3) {
        let at = dice.below(new.steps.len());
        let places = new.places as usize;
        match dice.below(4) {
            0 => new.steps[at].ins = some(places, dice),
            1 => new.steps[at].outs = some(places, dice),
            2 => new.start = some(places, dice),
            _ => {
                let other = dice.below(new.steps.len());
                swap_places(&mut new.steps, at, other);
            }
        }
    }
    Sheet { old, new, done }
}

/// Two steps change places in the net.
fn swap_places(steps: &mut [Step], one: usize, other: usize) {
    let (ins, outs) = (steps[one].ins.clone(), steps[one].outs.clone());
    steps[one].ins = std::mem::replace(&mut steps[other].ins, ins);
    steps[one].outs = std::mem::replace(&mut steps[other].outs, outs);
}

/// A chain of these steps: the k-th goes from place k to place k + 1, and each
/// writes a variable; at times it reads the one before.
fn chain_of(names: &[u64], reads: bool) -> Route {
    let step = |(place, &name): (usize, &u64)| Step {
        name,
        ins: vec![place as u64],
        outs: vec![place as u64 + 1],
        reads: if reads && name % 5 == 2 {
            vec![(name - 2) % 32]
        } else {
            vec![]
        },
        writes: vec![(name - 1) % 32],
        cloth: false,
    };
    Route {
        places: names.len() as u64 + 1,
        start: vec![0],
        steps: names.iter().enumerate().map(step).collect(),
    }
}

/// A chain, as it was, turned round or with neighbours swapped.
fn chain(dice: &mut Dice) -> Sheet {
    let counts = [2, 3, 5, 8, 15, 16, 16, 17, 18, 32, 63];
    let names: Vec<u64> = (1..=counts[dice.below(counts.len())]).collect();
    let mut order = names.clone();
    match dice.below(4) {
        0 => {}
        1 => order.reverse(),
        _ => {
            for _ in 0..dice.from_to(1, 4) {
                let at = dice.below(order.len() - 1);
                order.swap(at, at + 1);
            }
        }
    }
    let reads = dice.chance(50);
    let length = if dice.chance(70) {
        names.len()
    } else {
        dice.below(names.len())
    };
    Sheet {
        old: chain_of(&names, reads),
        new: chain_of(&order, reads),
        done: names[..length].to_vec(),
    }
}

/// 10, then 20 and 30 side by side, each building on itself, up to 64 done in
/// all: kept at, under and over 16, straight and not.
fn building(dice: &mut Dice) -> Sheet {
    let step = |name, ins: &[u64], outs: &[u64], variable: u64| Step {
        name,
        ins: ins.to_vec(),
        outs: outs.to_vec(),
        reads: vec![variable],
        writes: vec![variable],
        cloth: false,
    };
    let first = step(10, &[0], &[1, 2], 3);
    let (second, third) = (step(20, &[1], &[1], 30), step(30, &[2], &[2], 31));
    let begun = |places, steps| Route {
        places,
        start: vec![0],
        steps,
    };
    let old = begun(3, vec![first.clone(), second.clone(), third.clone()]);
    let new = match dice.below(4) {
        0..=1 => old.clone(),
        // 30 is left out.
        2 => begun(2, vec![step(10, &[0], &[1], 3), second]),
        // 20 and 30 go in turn.
        _ => begun(
            3,
            vec![step(10, &[0], &[1], 3), second, step(30, &[1], &[2], 31)],
        ),
    };
    let lengths = [2, 5, 16, 17, 18, 33, 64, 64];
    let length = lengths[dice.below(lengths.len())];
    let done = run_at_random(&old, length, dice);
    Sheet { old, new, done }
}

/// Steps side by side, done in any order; in the new route some of them wait
/// for others, and at times for each other, or put a token back where one began.
fn beside(dice: &mut Dice) -> Sheet {
    let count = [2, 3, 4, 5, 6, 7, 16][dice.below(7)];
    let step = |at: u64| Step {
        name: 65_535 - at,
        ins: vec![at],
        outs: vec![count + at],
        reads: perhaps(count as usize, dice),
        writes: vec![at],
        cloth: false,
    };
    let old = Route {
        places: 2 * count,
        start: (0..count).collect(),
        steps: (0..count).map(step).collect(),
    };
    let mut new = old.clone();
    for _ in 0..dice.below(count as usize + 1) {
        let (at, other) = (dice.below(count as usize), dice.below(count as usize));
        let (low, high) = (at.min(other), at.max(other));
        let (at, other) = if dice.chance(6) {
            (high, low)
        } else {
            (low, high)
        };
        waits(&mut new.steps[at], count + other as u64);
    }
    if dice.chance(60) {
        let (at, other) = (dice.below(count as usize), dice.below(count as usize));
        fills(&mut new.steps[at], other as u64);
    }
    let done = run_at_random(&old, count as usize, dice);
    Sheet { old, new, done }
}

/// The step takes a token from this place too, and puts it back.
pub(super) fn waits(step: &mut Step, place: u64) {
    if step.outs.contains(&place) || step.ins.len() == 8 || step.outs.len() == 8 {
        return;
    }
    for list in [&mut step.ins, &mut step.outs] {
        list.push(place);
        list.sort();
    }
}

/// The step puts a token back on this place, from which another began.
fn fills(step: &mut Step, place: u64) {
    if !step.ins.contains(&place) && step.outs.len() < 8 {
        step.outs.push(place);
        step.outs.sort();
    }
}

/// Steps side by side, all done in any order; in the new route they hand tokens
/// on over shared places, so that some orders fire and others get stuck.
fn tangled(dice: &mut Dice) -> Sheet {
    let count = [3, 4, 5, 6, 7, 8, 12, 16][dice.below(8)];
    let step = |at: u64| Step {
        name: at + 1,
        ins: vec![at],
        outs: vec![count + at],
        reads: if dice.chance(15) {
            some(count as usize, dice)
        } else {
            vec![]
        },
        writes: vec![at],
        cloth: false,
    };
    let old = Route {
        places: 2 * count,
        start: (0..count).collect(),
        steps: (0..count).map(step).collect(),
    };
    let mut new = old.clone();
    let mut order: Vec<usize> = (0..count as usize).collect();
    dice.shuffle(&mut order);
    share(&mut new, &order, dice);
    let done = run_at_random(&old, count as usize, dice);
    Sheet { old, new, done }
}

/// Lets the steps take and fill shared places, so that they fire in this order.
fn share(route: &mut Route, order: &[usize], dice: &mut Dice) {
    let (mut full, mut empty): (Vec<u64>, Vec<u64>) = (vec![], vec![]);
    for &at in order {
        let step = &mut route.steps[at];
        if !full.is_empty() && dice.chance(65) {
            let place = full.swap_remove(dice.below(full.len()));
            step.ins.push(place);
            empty.push(place);
        }
        if dice.chance(65) {
            if empty.is_empty() || dice.chance(35) {
                empty.push(route.places);
                route.places += 1;
            }
            let place = empty.swap_remove(dice.below(empty.len()));
            step.outs.push(place);
            full.push(place);
        }
    }
}

/// All variables, in eights that rise.
fn eights(dice: &mut Dice) -> Vec<Vec<u64>> {
    let mut all: Vec<u64> = (0..32).collect();
    dice.shuffle(&mut all);
    all.chunks_mut(8).for_each(<[u64]>::sort);
    all.chunks(8).map(<[u64]>::to_vec).collect()
}

/// Eight variables, rising.
fn eight(dice: &mut Dice) -> Vec<u64> {
    eights(dice).swap_remove(0)
}

/// The at-th eight of 64 places.
fn layer(at: u64) -> Vec<u64> {
    (8 * at..8 * at + 8).collect()
}

/// 64 places in layers of eight, up to 64 steps from each layer to the next and
/// from the last back to the first or the second, with 8 entries in each list. Four of
/// the steps write all variables between them.
fn crowded(dice: &mut Dice) -> Sheet {
    let count = [8, 9, 16, 64][dice.below(4)];
    let back = dice.below(2) as u64;
    let mut writes = eights(dice);
    let step = |at: u64| Step {
        name: 65_535 - at,
        ins: layer(at % 8),
        outs: layer(if at % 8 == 7 { back } else { at % 8 + 1 }),
        reads: eight(dice),
        writes: writes.pop().unwrap_or_else(|| eight(dice)),
        cloth: false,
    };
    let old = Route {
        places: 64,
        start: layer(0),
        steps: (0..count).map(step).collect(),
    };
    let length = dice.from_to(0, 64);
    let done = run_at_random(&old, length, dice);
    let mut new = old.clone();
    if dice.chance(50) {
        let (at, other) = (dice.below(count as usize), dice.below(count as usize));
        swap_places(&mut new.steps, at, other);
    }
    Sheet { old, new, done }
}

/// 64 places with a token each at the start. Of each eight one step takes all tokens
/// and puts some back, and another puts back the rest, over and over.
fn all_started(dice: &mut Dice) -> Sheet {
    let mut steps = Vec::new();
    for at in 0..8 {
        let all = layer(at);
        let some = all[..dice.from_to(1, 8)].to_vec();
        for (ins, outs) in [(all.clone(), some.clone()), (some, all)] {
            steps.push(Step {
                name: steps.len() as u64 + 1,
                ins,
                outs,
                reads: perhaps(32, dice),
                writes: perhaps(32, dice),
                cloth: false,
            });
        }
    }
    let start = (0..64).collect();
    let mut old = Route {
        places: 64,
        start,
        steps,
    };
    reads::mend_route(&mut old, dice);
    let length = [0, 1, 4, 9, 16, 64][dice.below(6)];
    let done = run_at_random(&old, length, dice);
    let mut new = old.clone();
    match dice.below(3) {
        0 => {}
        1 => {
            new.start.remove(dice.below(64));
        }
        _ => {
            let (at, other) = (dice.below(16), dice.below(16));
            swap_places(&mut new.steps, at, other);
        }
    }
    Sheet { old, new, done }
}

/// A change that most often leads to one of the rows 6 to 12; what is read is still
/// written after it.
fn twist(job: &mut Sheet, dice: &mut Dice) {
    let at = dice.below(job.new.steps.len());
    match dice.below(24) {
        0 => job.old.places = 64.min(job.old.places + 1),
        1 => job.new.places = 64.min(job.new.places + 1),
        2..=5 => twist_start(job, dice),
        6..=10 => spoil(&mut job.done, dice),
        11..=12 => {
            let name = &mut job.new.steps[at].name;
            *name = names::other(*name, dice);
        }
        13 => {
            job.new.steps[at].reads = perhaps(32, dice);
            reads::mend_route(&mut job.new, dice);
        }
        14 => without_data(job, at),
        15..=20 => change_mark(&mut job.new, dice),
        21 => {
            without_data(job, at);
            cloth::clear(job);
        }
        _ => {
            job.new.steps[at].writes = perhaps(32, dice);
            reads::mend_route(&mut job.new, dice);
        }
    }
}

/// One of the routes begins nowhere or elsewhere, or goes round.
fn twist_start(job: &mut Sheet, dice: &mut Dice) {
    let route = if dice.chance(60) {
        &mut job.old
    } else {
        &mut job.new
    };
    match dice.below(7) {
        0 => route.start.clear(),
        1 => starts::take_away(route),
        2..=5 => starts::change(route, dice),
        _ => close(route),
    }
}

/// No step reads or writes, so only cuts are kept; one of the new route has a name
/// of its own.
fn without_data(job: &mut Sheet, at: usize) {
    job.new.steps[at].name = 40_000;
    for step in job.old.steps.iter_mut().chain(&mut job.new.steps) {
        step.reads.clear();
        step.writes.clear();
    }
}

/// A step is marked that wasn't, or isn't any more.
fn change_mark(route: &mut Route, dice: &mut Dice) {
    let steps = route.steps.iter_mut();
    let marks = steps.map(|step| (&mut step.cloth, step.writes.is_empty()));
    cloth::change(marks.collect(), dice);
}

/// Each start place becomes an out-place of the last step: the route goes round.
pub(super) fn close(route: &mut Route) {
    let places = net::start(route);
    if let Some(step) = route.steps.last_mut() {
        step.outs.extend(places);
        step.outs.sort();
        step.outs.dedup();
    }
}

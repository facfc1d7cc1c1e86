//! Mistyped variables (02, A.7): steps of the old route, of the new one or of both read
//! what no step of theirs writes.

use super::dice::Dice;
use super::reads::insert;
use super::records::any;
use super::spoil;
use crate::reads::is_written;
use crate::sheet::{Route, Sheet};

/// Steps of one of the routes or of both read what no step of theirs writes. At times
/// rows 6 and 7 of a route, or the done list's, could be told too.
pub fn job(job: &mut Sheet, dice: &mut Dice) {
    let routes = dice.below(6);
    let [by_old, by_new] = [&job.old, &job.new].map(written_in);
    if routes < 3 {
        self::route(&mut job.old, &by_new, dice);
    }
    if routes > 1 {
        self::route(&mut job.new, &by_old, dice);
    }
    let kind = dice.below(12);
    let route = if dice.chance(50) {
        &mut job.old
    } else {
        &mut job.new
    };
    match kind {
        0..=1 => route.places = 64.min(route.places + 1),
        2..=3 => route.start.clear(),
        4..=7 => spoil(&mut job.done, dice),
        _ => {}
    }
}

fn written_in(route: &Route) -> Vec<u64> {
    (0..32).filter(|v| is_written(route, *v)).collect()
}

/// One to three steps read what none of the route writes, many of them one of these
/// variables; or nobody writes any more what is read.
pub fn route(route: &mut Route, preferred: &[u64], dice: &mut Dice) {
    if dice.chance(35) {
        lose_the_writing(route, dice);
        return;
    }
    let mut unwritten: Vec<u64> = (0..32).filter(|v| !is_written(route, *v)).collect();
    if dice.chance(60) && unwritten.iter().any(|v| preferred.contains(v)) {
        unwritten.retain(|variable| preferred.contains(variable));
    }
    let (Some(&lowest), Some(&highest)) = (unwritten.first(), unwritten.last()) else {
        return;
    };
    let mut at = some_step(route, dice);
    for _ in 0..any(&[1, 1, 1, 2, 2, 3], dice) {
        let some = any(&unwritten, dice);
        let variable = any(&[some, some, some, lowest, highest], dice);
        misread(&mut route.steps[at].reads, variable, dice);
        if dice.chance(70) {
            at = some_step(route, dice);
        }
    }
}

/// Where a step stands, half of the time one that reads something.
fn some_step(route: &Route, dice: &mut Dice) -> usize {
    let reads = |at: &usize| !route.steps[*at].reads.is_empty();
    let reading: Vec<usize> = (0..route.steps.len()).filter(reads).collect();
    if !reading.is_empty() && dice.chance(50) {
        any(&reading, dice)
    } else {
        dice.below(route.steps.len())
    }
}

/// The variable is read too, or in the place of another.
fn misread(reads: &mut Vec<u64>, variable: u64, dice: &mut Dice) {
    if !reads.is_empty() && (reads.len() == 8 || dice.chance(30)) {
        reads.remove(dice.below(reads.len()));
    }
    insert(reads, variable);
}

/// No step writes any more what one of them reads.
fn lose_the_writing(route: &mut Route, dice: &mut Dice) {
    let steps = route.steps.iter();
    let read: Vec<u64> = steps.flat_map(|step| step.reads.clone()).collect();
    if read.is_empty() {
        return;
    }
    let lost = any(&read, dice);
    for step in &mut route.steps {
        step.writes.retain(|variable| *variable != lost);
    }
}

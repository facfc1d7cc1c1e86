//! Readings (02, A.7): nearly all routes write what they read.

use super::dice::Dice;
use super::records::any;
use crate::reads::is_written;
use crate::sheet::{Route, Step};

/// What a step reads, and what it writes.
pub type Lists<'a> = (&'a mut Vec<u64>, &'a mut Vec<u64>);

/// Lets these steps write all that they read. In the place of a variable that none of
/// them writes another one is read, or none, or a step that writes writes it too.
pub fn mend(mut steps: Vec<Lists>, dice: &mut Dice) {
    for variable in unwritten(&steps) {
        let written = written(&steps);
        let mut writers: Vec<&mut Lists> = steps.iter_mut().collect();
        writers.retain(|(_, writes)| (1..8).contains(&writes.len()));
        let at = dice.below(writers.len().max(1));
        match (dice.below(5), writers.get_mut(at)) {
            (0, Some((_, writes))) => insert(writes, variable),
            (0..=2, _) => read_another(&mut steps, variable, &written, dice),
            _ => read_another(&mut steps, variable, &[], dice),
        }
    }
}

/// The same for a route.
pub fn mend_route(route: &mut Route, dice: &mut Dice) {
    mend(route.steps.iter_mut().map(lists).collect(), dice);
}

/// What no step of the route writes is read no more.
pub fn forget(route: &mut Route) {
    let whole = route.clone();
    for step in &mut route.steps {
        step.reads.retain(|&variable| is_written(&whole, variable));
    }
}

fn lists(step: &mut Step) -> Lists<'_> {
    (&mut step.reads, &mut step.writes)
}

/// The variables that are read and that none of the steps writes.
fn unwritten(steps: &[Lists]) -> Vec<u64> {
    let written = written(steps);
    let read = |variable: &u64| steps.iter().any(|(reads, _)| reads.contains(variable));
    (0..32)
        .filter(|v| read(v) && !written.contains(v))
        .collect()
}

fn written(steps: &[Lists]) -> Vec<u64> {
    let writes = |variable: &u64| steps.iter().any(|(_, writes)| writes.contains(variable));
    (0..32).filter(writes).collect()
}

pub(super) fn insert(list: &mut Vec<u64>, variable: u64) {
    list.push(variable);
    list.sort();
    list.dedup();
}

/// Those that read the variable read one of these in its place that they don't read
/// yet, if there is one.
fn read_another(steps: &mut [Lists], variable: u64, others: &[u64], dice: &mut Dice) {
    let reading = steps
        .iter_mut()
        .filter(|(reads, _)| reads.contains(&variable));
    for (reads, _) in reading {
        reads.retain(|one| *one != variable);
        let mut left = others.to_vec();
        left.retain(|other| !reads.contains(other));
        if !left.is_empty() {
            insert(reads, any(&left, dice));
        }
    }
}

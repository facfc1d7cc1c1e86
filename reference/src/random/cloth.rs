//! Marks: about a third of all steps are cloth. Some jobs have none, few or all of
//! their steps marked; many cuts write nothing.

use super::dice::Dice;
use super::reads;
use super::records::any;
use crate::sheet::Sheet;
use std::collections::BTreeMap;

/// Of a hundred steps of a plan or a job so many are marked.
pub fn share(dice: &mut Dice) -> usize {
    any(&[0, 0, 0, 20, 30, 40, 60, 100], dice)
}

/// Whether a cut writes nothing.
pub fn silent(dice: &mut Dice) -> bool {
    dice.chance(40)
}

/// The job with some steps marked, each in both routes; some of these write nothing, and
/// what only they wrote is read no more.
pub fn marked(mut job: Sheet, dice: &mut Dice) -> Sheet {
    let share = share(dice);
    let mut marks: BTreeMap<u64, [bool; 2]> = BTreeMap::new();
    for step in job.old.steps.iter_mut().chain(&mut job.new.steps) {
        let draw = || [dice.chance(share), silent(dice)];
        let [cloth, silent] = *marks.entry(step.name).or_insert_with(draw);
        step.cloth = cloth;
        if cloth && silent {
            step.writes.clear();
        }
    }
    reads::forget(&mut job.old);
    reads::forget(&mut job.new);
    job
}

/// No step is marked.
pub fn clear(job: &mut Sheet) {
    let steps = job.old.steps.iter_mut().chain(&mut job.new.steps);
    steps.for_each(|step| step.cloth = false);
}

/// One mark is set or taken away. Each is given with whether its step writes nothing:
/// half of the time it is the mark of such a step, if there is one.
pub fn change(mut marks: Vec<(&mut bool, bool)>, dice: &mut Dice) {
    if dice.chance(50) && marks.iter().any(|(_, silent)| *silent) {
        marks.retain(|(_, silent)| *silent);
    }
    let at = dice.below(marks.len());
    *marks[at].0 ^= true;
}

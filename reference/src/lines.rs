//! Rows 4, 2, 3 and 5: each line, top down, and for each line the rows in turn.

use crate::refusal::{refuse_if, Refusal};
use crate::sheet::{Route, Sheet, Step};
use crate::version::Version;
use std::ops::RangeInclusive;

pub const PLACES: RangeInclusive<u64> = 1..=64;
pub const VARIABLES: RangeInclusive<u64> = 0..=31;
pub const MOST_STEPS: usize = 64;
pub const MOST_DONE: usize = 64;
pub const MOST_ENTRIES: usize = 8;

/// Looks at every line of the sheet of these facts, as this version has its lines.
pub fn check(sheet: &Sheet, version: &Version) -> Result<(), Refusal> {
    check_route(&sheet.old, sheet.old_line(), version)?;
    check_route(&sheet.new, sheet.new_line_by(version), version)?;
    for (index, &name) in sheet.done.iter().enumerate() {
        let line = sheet.job_line_by(version) + index + 1;
        refuse_if(index >= MOST_DONE, 4, line)?;
        refuse_if(!version.is_name(name), 2, line)?;
    }
    Ok(())
}

/// A head line, its start line, the route's step lines, and the line that follows
/// where it has none.
pub fn check_route(route: &Route, head: usize, version: &Version) -> Result<(), Refusal> {
    refuse_if(!PLACES.contains(&route.places), 2, head)?;
    // Without a start line there is no place in the start.
    check_start(route, version.start_line(head))?;
    let first = version.first_step_line(head);
    for (index, step) in route.steps.iter().enumerate() {
        let line = first + index;
        let earlier = &route.steps[..index];
        refuse_if(index >= MOST_STEPS, 4, line)?;
        refuse_if(!version.is_name(step.name), 2, line)?;
        refuse_if(out_of_range(step, route.places), 2, line)?;
        refuse_if(bad_list(step), 3, line)?;
        refuse_if(earlier.iter().any(|e| e.name == step.name), 5, line)?;
    }
    refuse_if(route.steps.is_empty(), 4, first)
}

/// Rows 2 and 3 of a start line: a place not below N, one not above the one before.
/// It may be empty, and longer than 8.
fn check_start(route: &Route, line: usize) -> Result<(), Refusal> {
    let outside = route.start.iter().any(|&place| place >= route.places);
    refuse_if(outside, 2, line)?;
    refuse_if(!rises(&route.start), 3, line)
}

/// Whether each entry is above the one before.
fn rises(list: &[u64]) -> bool {
    list.windows(2).all(|pair| pair[0] < pair[1])
}

/// Row 2 for the lists of a step: a variable outside its range, or a place not below N.
fn out_of_range(step: &Step, places: u64) -> bool {
    let mut all_places = step.ins.iter().chain(&step.outs);
    let mut all_variables = step.reads.iter().chain(&step.writes);
    all_places.any(|&place| place >= places)
        || all_variables.any(|variable| !VARIABLES.contains(variable))
}

/// Row 3: in or out empty, a list over 8, or an entry not above the one before.
fn bad_list(step: &Step) -> bool {
    let lists = [&step.ins, &step.outs, &step.reads, &step.writes];
    step.ins.is_empty()
        || step.outs.is_empty()
        || lists.iter().any(|list| list.len() > MOST_ENTRIES)
        || !lists.iter().all(|list| rises(list))
}

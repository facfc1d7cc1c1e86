//! The net: firing, the start, the rows of a route after its lines (6, 7 and 23), and
//! the run of the done list (8, 9).

use crate::lines;
use crate::reads;
use crate::refusal::{refuse, refuse_if, Refusal};
use crate::sheet::{Route, Sheet, Step};
use crate::version::Version;
use std::collections::BTreeSet;

/// The places with a token.
pub type Marking = BTreeSet<u64>;

/// The start (02, A.5): a token on each place of the start line.
pub fn start(route: &Route) -> Marking {
    route.start.iter().copied().collect()
}

/// 01's start, which is only implied: a token on each place that is an out-place of
/// no step. No job begins there any more.
pub fn implied_start(route: &Route) -> Marking {
    (0..route.places)
        .filter(|place| !route.steps.iter().any(|step| step.outs.contains(place)))
        .collect()
}

/// Each in-place has a token, and each out-place that isn't also an in-place has none.
pub fn can_fire(marking: &Marking, step: &Step) -> bool {
    let full = step.ins.iter().all(|place| marking.contains(place));
    let free = step
        .outs
        .iter()
        .filter(|place| !step.ins.contains(place))
        .all(|place| !marking.contains(place));
    full && free
}

/// Fires a step: empties the in-places that aren't out-places, fills the
/// out-places that aren't in-places. A step that can't fire gets 18 and 0.
pub fn fire(marking: &Marking, step: &Step) -> Result<Marking, Refusal> {
    refuse_if(!can_fire(marking, step), 18, 0)?;
    let mut next = marking.clone();
    for place in &step.ins {
        if !step.outs.contains(place) {
            next.remove(place);
        }
    }
    for place in &step.outs {
        if !step.ins.contains(place) {
            next.insert(*place);
        }
    }
    Ok(next)
}

/// The start of a route in a sheet of this version: the written or the implied one.
fn start_by(route: &Route, version: &Version) -> Marking {
    if version.start {
        start(route)
    } else {
        implied_start(route)
    }
}

/// Rows 6 and 7 of both routes, old, then new: the converter looks for no 23.
pub fn check(sheet: &Sheet, version: &Version) -> Result<(), Refusal> {
    check_places(&sheet.old, sheet.old_line(), version)?;
    check_places(&sheet.new, sheet.new_line_by(version), version)
}

/// Rows 6, 7 and 23 of one route, with its head at this line.
pub fn check_route(route: &Route, head: usize) -> Result<(), Refusal> {
    check_places(route, head, &Version::PRESENT)?;
    reads::check(route, head)
}

/// Rows 6 and 7 of one route: a place in no step, at its head; no start place, at the
/// line that tells the start.
fn check_places(route: &Route, head: usize, version: &Version) -> Result<(), Refusal> {
    let used = |place: &u64| {
        let mut steps = route.steps.iter();
        steps.any(|step| step.ins.contains(place) || step.outs.contains(place))
    };
    refuse_if(!(0..route.places).all(|place| used(&place)), 6, head)?;
    let begins_nowhere = start_by(route, version).is_empty();
    refuse_if(begins_nowhere, 7, version.start_line(head))
}

/// Runs the done list on the old route, by the rows to 9; gives its marking.
pub fn run(sheet: &Sheet) -> Result<Marking, Refusal> {
    lines::check(sheet, &Version::PRESENT)?;
    check_route(&sheet.old, sheet.old_line())?;
    check_route(&sheet.new, sheet.new_line())?;
    let mut marking = start(&sheet.old);
    for (index, name) in sheet.done.iter().enumerate() {
        let line = sheet.done_line(index + 1);
        let Some(step) = sheet.old.step(*name) else {
            return refuse(8, line);
        };
        refuse_if(!can_fire(&marking, step), 9, line)?;
        marking = fire(&marking, step)?;
    }
    Ok(marking)
}

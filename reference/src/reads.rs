//! A reading that nobody writes (02, A.7): row 23 of a route.

use crate::refusal::{refuse_if, Refusal};
use crate::sheet::Route;
use crate::version::Version;

/// Whether some step of the route writes the variable.
pub fn is_written(route: &Route, variable: u64) -> bool {
    let mut steps = route.steps.iter();
    steps.any(|step| step.writes.contains(&variable))
}

/// Row 23: a step that reads a variable which no step of its route writes, at the first
/// one's line.
pub fn check(route: &Route, head: usize) -> Result<(), Refusal> {
    let first = Version::PRESENT.first_step_line(head);
    for (index, step) in route.steps.iter().enumerate() {
        let written = |variable: &u64| is_written(route, *variable);
        refuse_if(!step.reads.iter().all(written), 23, first + index)?;
    }
    Ok(())
}

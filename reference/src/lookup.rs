//! Look-up from where we were (02, A.3): finding a name begins after the step
//! found last, the first time or past the last step at the top, and goes round to
//! the top. It also tells how many names it compared.

use crate::net;
use crate::refusal::Refusal;
use crate::sheet::{Route, Sheet};

/// What finding a name tells.
#[derive(Clone, Copy, Debug, PartialEq, Eq)]
pub struct Found {
    /// Where the name stands, the top being 0.
    pub at: Option<usize>,
    /// How many names it compared: those from its beginning to the step found, or
    /// all where there is none.
    pub compared: usize,
    /// Where the next finding begins: after the step found; where there is none,
    /// the beginning stays.
    pub next: u64,
}

/// The positions of so many names in the order in which they are looked at: from
/// the beginning to the last, then from the top. Past the last it begins at the top.
pub fn positions(count: usize, from: u64) -> Vec<usize> {
    let all = 0..count;
    let (below, above): (Vec<usize>, Vec<usize>) = all.partition(|&at| at as u64 >= from);
    [below, above].concat()
}

/// Finds a name among these; of a name that stands twice, the one met first.
pub fn find(names: &[u64], from: u64, name: u64) -> Found {
    let order = positions(names.len(), from);
    let others = order.iter().take_while(|&&at| names[at] != name).count();
    match order.get(others) {
        Some(&at) => Found {
            at: Some(at),
            compared: others + 1,
            next: at as u64 + 1,
        },
        None => Found {
            at: None,
            compared: names.len(),
            next: from,
        },
    }
}

/// Finds these names in turn, the first from the top.
pub fn find_in_turn(names: &[u64], wanted: &[u64]) -> Vec<Found> {
    let mut from = 0;
    let mut all = Vec::new();
    for &name in wanted {
        let found = find(names, from, name);
        from = found.next;
        all.push(found);
    }
    all
}

/// How many names were compared for all of these.
pub fn total(names: &[u64], wanted: &[u64]) -> usize {
    let found = find_in_turn(names, wanted);
    found.iter().map(|found| found.compared).sum()
}

/// The names of the route's steps.
pub fn step_names(route: &Route) -> Vec<u64> {
    route.steps.iter().map(|step| step.name).collect()
}

/// How many names the run on the old route compared, and the match with the new
/// one, by the rows to 9: both find each done name in turn.
pub fn comparisons(facts: &Sheet) -> Result<(usize, usize), Refusal> {
    net::run(facts)?;
    let total_on = |route| total(&step_names(route), &facts.done);
    Ok((total_on(&facts.old), total_on(&facts.new)))
}

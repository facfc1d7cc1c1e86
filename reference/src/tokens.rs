//! Branches taken (02, A.8): who put the tokens that an occurrence takes, told by a
//! replay of the done list in which each token knows who put it.

use crate::sheet::{Route, Step};
use crate::slice::Occurrences;
use std::collections::BTreeMap;

/// Places with a token, and the occurrence that put it there: none put a start token.
pub type Tokens = BTreeMap<u64, Option<usize>>;

/// Whether two or more steps of the route, done or not, take from the place.
pub fn is_shared(route: &Route, place: u64) -> bool {
    let takes = |step: &&Step| step.ins.contains(&place);
    route.steps.iter().filter(takes).count() > 1
}

/// For each occurrence the tokens that it takes: those on its in-places when its turn
/// comes. The done list is one that the old route runs.
pub fn taken(old: &Route, done: &[&Step]) -> Vec<Tokens> {
    let mut tokens: Tokens = old.start.iter().map(|&place| (place, None)).collect();
    let mut all = Vec::new();
    for (index, step) in done.iter().enumerate() {
        let on_ins = step.ins.iter().map(|place| (*place, tokens[place]));
        all.push(on_ins.collect());
        hand_on(&mut tokens, step, index + 1);
    }
    all
}

/// The step fires in this occurrence. A token on a place both in and out stays as it is.
fn hand_on(tokens: &mut Tokens, step: &Step, occurrence: usize) {
    tokens.retain(|place, _| !step.ins.contains(place) || step.outs.contains(place));
    for &place in &step.outs {
        if !step.ins.contains(&place) {
            tokens.insert(place, Some(occurrence));
        }
    }
}

/// For each occurrence those that put the tokens that it takes from shared places.
pub fn putters(old: &Route, done: &[&Step]) -> Vec<Occurrences> {
    let shared = |tokens: Tokens| {
        let mut tokens = tokens;
        tokens.retain(|&place, _| is_shared(old, place));
        tokens.into_values().flatten().collect()
    };
    taken(old, done).into_iter().map(shared).collect()
}

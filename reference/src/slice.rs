//! The slice: what an occurrence needs, the kept occurrences, and precedence.
//! Occurrence o, from 1, is `done[o - 1]`: its step in the old route.

use crate::job::Job;
use crate::refusal::Refusal;
use crate::sheet::{Route, Sheet, Step};
use std::collections::BTreeSet;

/// A set of occurrences.
pub type Occurrences = BTreeSet<usize>;

/// The last occurrence before this one that writes the variable.
pub fn last_writer_before(done: &[&Step], occurrence: usize, variable: u64) -> Option<usize> {
    (1..occurrence)
        .rev()
        .find(|&o| done[o - 1].writes.contains(&variable))
}

/// The last writer of the variable in the whole done list.
pub fn last_writer(done: &[&Step], variable: u64) -> Option<usize> {
    last_writer_before(done, done.len() + 1, variable)
}

/// What an occurrence needs: the last earlier writer of each variable it reads, and
/// those that put the tokens that it takes from shared places.
pub fn needs(done: &[&Step], putters: &[Occurrences], occurrence: usize) -> Occurrences {
    let reads = &done[occurrence - 1].reads;
    let writer = |variable: &u64| last_writer_before(done, occurrence, *variable);
    let writers = reads.iter().filter_map(writer);
    writers.chain(putters[occurrence - 1].clone()).collect()
}

/// The route's variables: all that its steps read or write.
pub fn variables(route: &Route) -> BTreeSet<u64> {
    let lists = |step: &Step| [step.reads.clone(), step.writes.clone()].concat();
    route.steps.iter().flat_map(lists).collect()
}

/// The cloth occurrences: those whose step is marked.
pub fn cloth(done: &[&Step]) -> Occurrences {
    let marked = |o: &usize| done[o - 1].cloth;
    (1..=done.len()).filter(marked).collect()
}

/// Kept: the last writer of each new-route variable, every cloth occurrence, and
/// all that these need, over and over, until nothing is added.
pub fn kept(done: &[&Step], putters: &[Occurrences], new: &Route) -> Occurrences {
    let writer = |variable| last_writer(done, variable);
    let mut kept: Occurrences = variables(new).into_iter().filter_map(writer).collect();
    kept.extend(cloth(done));
    loop {
        let mut more = kept.clone();
        for &occurrence in &kept {
            more.extend(needs(done, putters, occurrence));
        }
        if more == kept {
            return kept;
        }
        kept = more;
    }
}

/// The later comes after the earlier when one writes a variable that the other
/// reads or writes, when both are cloth occurrences, or when the later took from a
/// shared place the token that the earlier put there.
pub fn comes_after(done: &[&Step], putters: &[Occurrences], later: usize, earlier: usize) -> bool {
    let touches = |writer: &Step, other: &Step| {
        let mut writes = writer.writes.iter();
        writes.any(|v| other.reads.contains(v) || other.writes.contains(v))
    };
    let valid = 1 <= earlier && earlier < later && later <= done.len();
    valid && {
        let (first, second) = (done[earlier - 1], done[later - 1]);
        let related = touches(first, second) || touches(second, first);
        related || first.cloth && second.cloth || putters[later - 1].contains(&earlier)
    }
}

/// Precedence: a row for each occurrence, holding those that it comes after.
pub fn table(done: &[&Step], putters: &[Occurrences]) -> Vec<Occurrences> {
    let row = |later| {
        (1..later)
            .filter(|&earlier| comes_after(done, putters, later, earlier))
            .collect()
    };
    (1..=done.len()).map(row).collect()
}

/// What the operation slice gives: the kept, and the table over all occurrences.
#[derive(Clone, Debug, PartialEq, Eq)]
pub struct Slice {
    pub kept: Occurrences,
    pub table: Vec<Occurrences>,
}

/// Slices the job, by the rows to 9.
pub fn slice(sheet: &Sheet) -> Result<Slice, Refusal> {
    let job = Job::of(sheet)?;
    Ok(Slice {
        table: table(&job.done, &job.putters),
        kept: job.kept,
    })
}

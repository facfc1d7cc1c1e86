//! Fit orders: straight and fit as predicates, the rows 10 to 12, and try.

use crate::job::Job;
use crate::net::{self, Marking};
use crate::refusal::{refuse, refuse_if, Refusal};
use crate::sheet::{self, Sheet};

/// The most kept occurrences where straight replay fails.
pub const MOST_KEPT: usize = 16;

/// The marking after all of the list fire in turn from the new start, if they do.
pub fn end(job: &Job, list: &[usize]) -> Option<Marking> {
    let mut marking = net::start(&job.sheet.new);
    for &occurrence in list {
        marking = net::fire(&marking, job.new_step(occurrence)?).ok()?;
    }
    Some(marking)
}

/// Straight: the whole done list in its own order, each name in the new route
/// with the same reads, writes and mark, all firing from the new start.
pub fn straight(job: &Job, list: &[usize]) -> bool {
    list == job.whole() && list.iter().all(|&o| job.same_in_new(o)) && end(job, list).is_some()
}

/// Whether the job has a straight list.
pub fn moves_straight(job: &Job) -> bool {
    straight(job, &job.whole())
}

/// Fit: a list that is straight, or that holds each kept occurrence once and no
/// other, none before one that it comes after, each step in the new route with
/// the same reads, writes and mark, all firing in turn from the new start. Where
/// straight replay fails and over 16 are kept, no list is fit.
pub fn fit(job: &Job, list: &[usize]) -> bool {
    let few = job.kept.len() <= MOST_KEPT || moves_straight(job);
    straight(job, list)
        || few
            && holds_kept_once(job, list)
            && keeps_precedence(job, list)
            && list.iter().all(|&o| job.same_in_new(o))
            && end(job, list).is_some()
}

/// Each kept occurrence once, and no other.
fn holds_kept_once(job: &Job, list: &[usize]) -> bool {
    let mut sorted = list.to_vec();
    sorted.sort();
    sorted.into_iter().eq(job.kept.iter().copied())
}

/// None before one that it comes after.
fn keeps_precedence(job: &Job, list: &[usize]) -> bool {
    (0..list.len()).all(|index| !too_early(job, list, index))
}

/// Whether the entry stands before one that it comes after.
fn too_early(job: &Job, list: &[usize], index: usize) -> bool {
    let mut rest = list[index + 1..].iter();
    rest.any(|&later| job.comes_after(list[index], later))
}

/// Rows 10, if not straight, and 11 and 12 for the kept in turn.
pub fn check_kept(job: &Job) -> Result<(), Refusal> {
    let many = job.kept.len() > MOST_KEPT && !moves_straight(job);
    refuse_if(many, 10, job.sheet.job_line())?;
    for &occurrence in &job.kept {
        let line = job.sheet.done_line(occurrence);
        refuse_if(job.new_step(occurrence).is_none(), 11, line)?;
        refuse_if(!job.same_in_new(occurrence), 12, line)?;
    }
    Ok(())
}

/// Tries a list that somebody hands in; gives its order's marking.
pub fn try_order(sheet: &Sheet, order: &[u8]) -> Result<Marking, Refusal> {
    let job = Job::of(sheet)?;
    check_kept(&job)?;
    let list: Vec<usize> = order.iter().map(|&byte| usize::from(byte)).collect();
    // The straight list is accepted before row 16.
    if !straight(&job, &list) {
        check_whole_list(&job, &list)?;
    }
    check_entries(&job, &list)
}

/// The form of try that takes sheet bytes.
pub fn try_sheet(bytes: &[u8], order: &[u8]) -> Result<Marking, Refusal> {
    try_order(&sheet::read(bytes)?, order)
}

/// Row 16: an entry not kept, or repeated; or some missing.
fn check_whole_list(job: &Job, list: &[usize]) -> Result<(), Refusal> {
    for (index, entry) in list.iter().enumerate() {
        let repeated = list[..index].contains(entry);
        refuse_if(!job.kept.contains(entry) || repeated, 16, index + 1)?;
    }
    let missing = job.kept.iter().any(|o| !list.contains(o));
    refuse_if(missing, 16, list.len() + 1)
}

/// Rows 17 and 18, each entry in turn; gives the marking at the end.
fn check_entries(job: &Job, list: &[usize]) -> Result<Marking, Refusal> {
    let mut marking = net::start(&job.sheet.new);
    for (index, &occurrence) in list.iter().enumerate() {
        let position = index + 1;
        refuse_if(too_early(job, list, index), 17, position)?;
        let fired = job
            .new_step(occurrence)
            .and_then(|step| net::fire(&marking, step).ok());
        let Some(next) = fired else {
            return refuse(18, position);
        };
        marking = next;
    }
    Ok(marking)
}

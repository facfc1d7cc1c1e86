//! Judge: the straight list if there is one; else, of all fit lists, the first
//! in dictionary order.

use crate::fit;
use crate::job::Job;
use crate::net::{self, Marking};
use crate::refusal::{refuse, refuse_if, Refusal};
use crate::search;
use crate::sheet::Sheet;
use crate::slice::{self, Occurrences};

/// The least work slice, and the part of it that is 0 after a search.
pub const WORK: usize = 8_192;

/// The facts that the listing shows.
#[derive(Clone, Debug, PartialEq, Eq)]
pub struct Moved {
    pub straight: bool,
    pub kept: Occurrences,
    pub dropped: usize,
    /// Each kept occurrence, and the kept ones that it comes after.
    pub after: Vec<(usize, Vec<usize>)>,
    pub order: Vec<usize>,
    pub marking: Marking,
    /// Each new-route variable that isn't blank, and its last writer.
    pub values: Vec<(u64, usize)>,
}

/// Judges the job of these facts: rows 14, 4, 2, 3 and 5, 6, 7 and 23, and 8 to 13.
pub fn judge(sheet: &Sheet, work: &mut [u8]) -> Result<Moved, Refusal> {
    refuse_if(work.len() < WORK, 14, 0)?;
    judge_job(&Job::of(sheet)?, work)
}

/// The same for a job that no row to 9 refuses, as its needs and its precedence stand.
pub fn judge_job(job: &Job, work: &mut [u8]) -> Result<Moved, Refusal> {
    fit::check_kept(job)?;
    let whole = job.whole();
    if let (true, Some(marking)) = (fit::straight(job, &whole), fit::end(job, &whole)) {
        let all = whole.iter().copied().collect();
        return Ok(moved(job, true, all, whole, marking));
    }
    work[..WORK].fill(0);
    match search::first(job, &net::start(&job.sheet.new), &job.kept) {
        Some((order, marking)) => Ok(moved(job, false, job.kept.clone(), order, marking)),
        None => refuse(13, job.sheet.job_line()),
    }
}

/// The facts of a job moved by this order.
fn moved(
    job: &Job,
    straight: bool,
    kept: Occurrences,
    order: Vec<usize>,
    marking: Marking,
) -> Moved {
    let row = |&one: &usize| {
        let others = kept.iter().copied();
        (one, others.filter(|&o| job.comes_after(one, o)).collect())
    };
    let value = |v| slice::last_writer(&job.done, v).map(|writer| (v, writer));
    Moved {
        straight,
        dropped: job.done.len() - kept.len(),
        after: kept.iter().map(row).collect(),
        order,
        marking,
        values: slice::variables(&job.sheet.new)
            .into_iter()
            .filter_map(value)
            .collect(),
        kept,
    }
}

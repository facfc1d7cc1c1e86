//! A job that no row to 9 refuses: its occurrences, whose tokens they take, its kept.

use crate::net;
use crate::refusal::Refusal;
use crate::sheet::{Sheet, Step};
use crate::slice::{self, Occurrences};
use crate::tokens;

#[derive(Clone)]
pub struct Job<'a> {
    pub sheet: &'a Sheet,
    /// The old route's step of each occurrence; occurrence o is at o - 1.
    pub done: Vec<&'a Step>,
    /// For each occurrence those that put what it takes from shared places.
    pub putters: Vec<Occurrences>,
    pub kept: Occurrences,
}

impl<'a> Job<'a> {
    /// The job of the sheet, by the rows to 9.
    pub fn of(sheet: &'a Sheet) -> Result<Job<'a>, Refusal> {
        net::run(sheet)?;
        let step = |name: &u64| sheet.old.step(*name);
        // Row 8 has found every name.
        let done: Vec<&Step> = sheet.done.iter().filter_map(step).collect();
        let putters = tokens::putters(&sheet.old, &done);
        let kept = slice::kept(&done, &putters, &sheet.new);
        Ok(Job {
            sheet,
            done,
            putters,
            kept,
        })
    }

    /// The whole done list in its own order.
    pub fn whole(&self) -> Vec<usize> {
        (1..=self.done.len()).collect()
    }

    /// What the occurrence needs.
    pub fn needs(&self, occurrence: usize) -> Occurrences {
        slice::needs(&self.done, &self.putters, occurrence)
    }

    /// Whether the one occurrence comes after the other.
    pub fn comes_after(&self, one: usize, other: usize) -> bool {
        slice::comes_after(&self.done, &self.putters, one, other)
    }

    /// The new route's step of an occurrence's name.
    pub fn new_step(&self, occurrence: usize) -> Option<&'a Step> {
        self.sheet.new.step(self.sheet.done[occurrence - 1])
    }

    /// Whether the occurrence's step is in the new route with the same reads, writes
    /// and mark.
    pub fn same_in_new(&self, occurrence: usize) -> bool {
        let facts = |step: &'a Step| (&step.reads, &step.writes, step.cloth);
        let old = self.done[occurrence - 1];
        self.new_step(occurrence)
            .is_some_and(|new| facts(new) == facts(old))
    }
}

//! A route: its steps as masks, and what is gathered while they are read.

use crate::names::Names;
use crate::Refusal;

/// The most steps of a route, and the most done lines of a job.
pub const MOST: usize = 64;

#[derive(Clone, Copy, Default)]
pub struct Step {
    pub ins: u64,
    pub outs: u64,
    pub reads: u32,
    pub writes: u32,
    pub name: u32,
    /// The mark of a step that cuts cloth.
    pub cloth: bool,
}

impl Step {
    /// Each in-place has a token, and each other out-place has none.
    pub fn can_fire(&self, marking: u64) -> bool {
        marking & (self.ins | self.outs) == self.ins
    }

    /// What firing changes: places that are both in and out stay.
    pub fn toggle(&self) -> u64 {
        self.ins ^ self.outs
    }

    /// The places that firing fills: a token on a place both in and out stays the one it was.
    pub fn puts(&self) -> u64 {
        self.outs & !self.ins
    }
}

pub struct Route {
    pub places: u64,
    /// The places with a token at the start.
    pub start: u64,
    pub len: usize,
    pub steps: [Step; MOST],
    names: Names,
    /// All places, all variables and the written variables of the steps.
    used: u64,
    pub variables: u32,
    written: u32,
    /// The places that a step has among its in-places, and those that two or more have.
    taken: u64,
    pub shared: u64,
}

impl Route {
    pub fn new() -> Route {
        Route {
            places: 0,
            start: 0,
            len: 0,
            steps: [Step::default(); MOST],
            names: Names::new(),
            used: 0,
            variables: 0,
            written: 0,
            taken: 0,
            shared: 0,
        }
    }

    /// Adds a step; false where its name is taken. There is room for it.
    pub fn add(&mut self, step: Step) -> bool {
        if !self.names.add(&self.steps, self.len, step.name) {
            return false;
        }
        self.steps[self.len] = step;
        self.len += 1;
        self.used |= step.ins | step.outs;
        self.variables |= step.reads | step.writes;
        self.written |= step.writes;
        self.shared |= self.taken & step.ins;
        self.taken |= step.ins;
        true
    }

    /// The steps that were added.
    pub fn all(&self) -> &[Step] {
        &self.steps[..self.len]
    }

    fn all_places(&self) -> u64 {
        u64::MAX >> (64 - self.places)
    }

    /// The start that 01 implies.
    pub fn implied(&self) -> u64 {
        let outs = self.all().iter().fold(0, |outs, step| outs | step.outs);
        self.all_places() & !outs
    }

    /// Rows 6, 7 and 23 of a route with its head at this line.
    pub fn open(&self, head: u64) -> Result<(), Refusal> {
        self.check(head)?;
        match self.unwritten_read() {
            Some(index) => Err((23, head + 2 + index as u64)),
            None => Ok(()),
        }
    }

    /// The first step that reads what no step writes.
    fn unwritten_read(&self) -> Option<usize> {
        if self.variables == self.written {
            return None;
        }
        let unwritten = |step: &Step| step.reads & !self.written != 0;
        self.all().iter().position(unwritten)
    }

    /// Rows 6 and 7 alone.
    pub fn check(&self, head: u64) -> Result<(), Refusal> {
        self.check_at(head, head + 1)
    }

    /// The same with 7 at any line.
    pub fn check_at(&self, head: u64, start_line: u64) -> Result<(), Refusal> {
        if self.used != self.all_places() {
            return Err((6, head));
        }
        if self.start == 0 {
            return Err((7, start_line));
        }
        Ok(())
    }
}

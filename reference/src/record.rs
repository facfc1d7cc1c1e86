//! Step records: a step's facts with the lists as bit masks, place p at bit p, and
//! its mark. A route by value holds 64 of them.

use crate::lines::MOST_STEPS;
use crate::sheet::{entries, Route, Step};

/// The numbers of a record.
pub const FIELDS: usize = 6;

#[derive(Clone, Copy, Debug, Default, PartialEq, Eq)]
pub struct Record {
    pub name: u32,
    pub ins: u64,
    pub outs: u64,
    pub reads: u32,
    pub writes: u32,
    pub cloth: bool,
}

/// A route by value: its start is a mask, and its first `len` records are its steps.
/// `len` may be past 64.
#[derive(Clone, Copy, Debug, PartialEq, Eq)]
pub struct RouteByValue {
    pub places: u32,
    pub start: u64,
    pub len: u64,
    pub records: [Record; MOST_STEPS],
}

/// The mask of these bits.
pub fn mask(bits: impl IntoIterator<Item = u64>) -> u64 {
    bits.into_iter().fold(0, |mask, bit| mask | 1 << bit)
}

impl Record {
    /// The record of a step whose numbers are in range.
    pub fn of(step: &Step) -> Record {
        let places = |list: &[u64]| mask(list.iter().copied());
        let variables = |list: &[u64]| mask(list.iter().copied()) as u32;
        Record {
            name: step.name.try_into().expect("a name in range"),
            ins: places(&step.ins),
            outs: places(&step.outs),
            reads: variables(&step.reads),
            writes: variables(&step.writes),
            cloth: step.cloth,
        }
    }

    /// The step of this record, in range or not.
    pub fn step(&self) -> Step {
        Step {
            name: self.name.into(),
            ins: entries(self.ins),
            outs: entries(self.outs),
            reads: entries(self.reads.into()),
            writes: entries(self.writes.into()),
            cloth: self.cloth,
        }
    }

    /// The six numbers, in the order of a script; a mark is 1.
    pub fn numbers(&self) -> [u64; FIELDS] {
        let Record {
            name,
            ins,
            outs,
            reads,
            writes,
            cloth,
        } = *self;
        let (reads, writes) = (reads.into(), writes.into());
        [name.into(), ins, outs, reads, writes, cloth.into()]
    }
}

impl RouteByValue {
    /// The records past those given, at most 64, are blank.
    pub fn of(places: u32, start: u64, len: u64, given: &[Record]) -> RouteByValue {
        let mut records = [Record::default(); MOST_STEPS];
        records[..given.len()].copy_from_slice(given);
        RouteByValue {
            places,
            start,
            len,
            records,
        }
    }

    /// The route that it stands for. At the 65th step it is refused, so no more
    /// are taken.
    pub fn route(&self) -> Route {
        let taken = self.len.min(MOST_STEPS as u64 + 1) as usize;
        let mut records = self.records.to_vec();
        records.resize(taken, Record::default());
        Route {
            places: self.places.into(),
            start: entries(self.start),
            steps: records.iter().map(Record::step).collect(),
        }
    }
}

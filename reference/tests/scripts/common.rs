//! Records, arguments and answers written by hand.

use crate::direct::Step;
use reference::script::answer;

pub type Numbers = Vec<u64>;

/// A route: its place count, its start mask, and its records' numbers.
#[derive(Clone)]
pub struct Records {
    pub places: u64,
    pub start: u64,
    pub list: Vec<Step>,
}

/// Both routes and the done list.
#[derive(Clone)]
pub struct Facts {
    pub old: Records,
    pub new: Records,
    pub done: Numbers,
}

/// A route that begins on its first place.
pub fn records(places: u64, list: &[Step]) -> Records {
    begun(places, 1, list)
}

/// A route that begins on the places of this mask.
pub fn begun(places: u64, start: u64, list: &[Step]) -> Records {
    let list = list.to_vec();
    Records {
        places,
        start,
        list,
    }
}

/// The facts of example A.
pub fn facts_a() -> Facts {
    Facts {
        old: records(
            4,
            &[
                [10, 1, 2, 0, 1, 0],
                [20, 2, 4, 0, 2, 0],
                [30, 4, 8, 3, 4, 0],
            ],
        ),
        new: records(
            4,
            &[
                [20, 1, 2, 0, 2, 0],
                [10, 2, 4, 0, 1, 0],
                [30, 4, 8, 3, 4, 0],
            ],
        ),
        done: vec![10, 20, 30],
    }
}

/// Numbers with one space between.
pub fn text(numbers: &[u64]) -> String {
    let words: Vec<String> = numbers.iter().map(u64::to_string).collect();
    words.join(" ")
}

/// The length, then the numbers: names, bytes or an order.
pub fn counted(numbers: &[u64]) -> String {
    format!("{} {}", numbers.len(), text(numbers))
}

impl Records {
    /// A lent list.
    pub fn lent(&self) -> String {
        let (count, list) = (self.list.len(), text(&self.list.concat()));
        format!("{} {} {count} {list}", self.places, self.start)
    }

    /// A route by value, with as many records.
    pub fn by_value(&self) -> String {
        self.with_len(self.list.len() as u64)
    }

    /// A route by value with this `len`.
    pub fn with_len(&self, len: u64) -> String {
        let (count, list) = (self.list.len(), text(&self.list.concat()));
        format!("{} {} {len} {count} {list}", self.places, self.start)
    }
}

impl Facts {
    pub fn lent(&self) -> String {
        let done = counted(&self.done);
        format!("{} {} {done}", self.old.lent(), self.new.lent())
    }

    pub fn by_value(&self) -> String {
        let done = counted(&self.done);
        format!("{} {} {done}", self.old.by_value(), self.new.by_value())
    }
}

/// The numbers of the 64 records of a route by value.
pub const BY_VALUE: usize = 64 * 6;

/// The bytes of a text as numbers.
pub fn numbers_of(text: &str) -> Numbers {
    text.bytes().map(u64::from).collect()
}

/// The numbers, and 0 up to this length.
pub fn padded(numbers: &[u64], length: usize) -> Numbers {
    let mut numbers = numbers.to_vec();
    numbers.resize(length, 0);
    numbers
}

/// A lent slice afterwards: its length, then its runs.
pub fn slice(numbers: &[u64]) -> Numbers {
    let mut runs: Vec<[u64; 2]> = Vec::new();
    for &number in numbers {
        match runs.last_mut() {
            Some(run) if run[1] == number => run[0] += 1,
            _ => runs.push([1, number]),
        }
    }
    [vec![numbers.len() as u64], runs.concat()].concat()
}

/// The script of one operation is answered so.
#[track_caller]
pub fn answers(operation: u64, arguments: &str, expected: &[u64]) {
    let script = format!("{operation} {arguments}");
    assert_eq!(answer(&script), text(expected) + "\n", "of {script}");
}

/// The operation is refused so, with so many other numbers.
#[track_caller]
pub fn refused(operation: u64, arguments: &str, refusal: [u64; 2], others: usize) {
    answers(operation, arguments, &padded(&refusal, 2 + others));
}

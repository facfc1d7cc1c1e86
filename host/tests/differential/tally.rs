//! Counts of what a test met, by 01's number.

use std::collections::BTreeMap;

#[derive(Default)]
pub struct Tally {
    counts: BTreeMap<u32, usize>,
}

impl Tally {
    pub fn add(&mut self, number: u32) {
        *self.counts.entry(number).or_default() += 1;
    }

    pub fn join(&mut self, other: Tally) {
        for (number, count) in other.counts {
            *self.counts.entry(number).or_default() += count;
        }
    }

    /// Counts a listing by the number that it refuses with, or 0 if it moves.
    pub fn add_listing(&mut self, listing: &[u8]) {
        let text = String::from_utf8_lossy(listing);
        let number = match text.strip_prefix("(refused ") {
            Some(rest) => rest.split(' ').next().and_then(|word| word.parse().ok()),
            None => text.starts_with("(moved ").then_some(0),
        };
        self.add(number.expect("no listing"));
    }

    /// Prints the counts, with words for all and for those with 0. Each of the
    /// numbers must have been met so many times.
    pub fn finish(&self, all: &str, good: &str, least: usize, numbers: &[u32]) {
        let count = |number| self.counts.get(number).copied().unwrap_or(0);
        let sum: usize = self.counts.values().sum();
        let refused: Vec<String> = self
            .counts
            .iter()
            .filter(|(number, _)| **number != 0)
            .map(|(number, count)| format!("{number}: {count}"))
            .collect();
        let refused = refused.join(", ");
        println!("{sum} {all}, {} {good}, by number {{{refused}}}", count(&0));
        for number in numbers {
            assert!(count(number) >= least, "{all}: number {number}");
        }
    }
}

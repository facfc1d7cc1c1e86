//! Counts of what random sheets, lists and scripts meet.

use std::collections::BTreeMap;

/// How often each kind was met.
#[derive(Default)]
pub struct Kinds(pub BTreeMap<String, usize>);

impl Kinds {
    pub fn add(&mut self, met: bool, kind: &str) {
        *self.0.entry(kind.to_string()).or_default() += usize::from(met);
    }

    /// Prints the counts, each of which must be at least so much.
    pub fn finish(&self, least: usize) {
        for (kind, count) in &self.0 {
            println!("{count:6} {kind}");
        }
        let seldom = self.0.iter().find(|(_, count)| **count < least);
        assert_eq!(seldom, None);
    }
}

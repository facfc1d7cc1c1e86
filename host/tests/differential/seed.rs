//! The seed of a run, and dice for each of a test's cases.

use reference::random::dice::{mix, Dice};
use std::env;
use std::sync::OnceLock;

/// The seed of the gate. The variable SEED gives another.
const FIXED: u64 = 2_026;

pub fn seed() -> u64 {
    static SEED: OnceLock<u64> = OnceLock::new();
    *SEED.get_or_init(|| match env::var("SEED") {
        Ok(text) => text.parse().expect("SEED is no number"),
        Err(_) => FIXED,
    })
}

/// The case that a test is at; printed when the test fails in it.
struct Case<'a>(&'a str, u64);

impl Drop for Case<'_> {
    fn drop(&mut self) {
        if std::thread::panicking() {
            eprintln!("SEED={}, {}, case {}", seed(), self.0, self.1);
        }
    }
}

/// Calls a check with fresh dice for each case of the test of this name.
pub fn for_each_case(test: &str, cases: u64, check: &mut dyn FnMut(&mut Dice)) {
    let salt = test
        .bytes()
        .fold(0, |hash, byte| mix(hash ^ u64::from(byte)));
    for number in 0..cases {
        let _case = Case(test, number);
        check(&mut Dice::new(mix(seed()) ^ salt ^ mix(number)));
    }
}

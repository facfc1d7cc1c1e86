//! Random scripts: every operation, on right and wrong records, sheets and orders.

use crate::drive::compare_script;
use crate::seed::for_each_case;
use crate::tally::Tally;
use reference::random::dice::Dice;
use reference::random::script;
use reference::script::numbers::MOST_BYTES;
use std::thread;

/// Operations over records by value, over sheets, and over lent lists; reading by
/// 01's version.
const OPERATIONS: [u32; 17] = [1, 2, 3, 4, 5, 6, 7, 8, 9, 10, 12, 13, 14, 15, 16, 18, 23];

/// These answer without a refusal number: the job part, a shelf handed in, a name
/// among names.
const WITHOUT_NUMBER: [u64; 3] = [7, 20, 24];

/// A generator of scripts.
type Generator = fn(&mut Dice) -> String;

/// The operations met, and the numbers of their answers.
#[derive(Default)]
pub struct Met {
    pub operations: Tally,
    pub numbers: Tally,
}

impl Met {
    pub fn compare(&mut self, name: &str, script: &str) {
        for (operation, answer) in compare_script(name, script) {
            self.operations.add(operation as u32);
            if !WITHOUT_NUMBER.contains(&operation) {
                self.numbers.add(answer[0] as u32);
            }
        }
    }
}

/// Compares so many random scripts, as many at once as the program takes.
fn compare_scripts(name: &str, scripts: u64, script: Generator) -> Met {
    let mut met = Met::default();
    let mut text = String::new();
    for_each_case(name, scripts, &mut |dice| {
        let next = script(dice);
        if text.len() + next.len() > MOST_BYTES {
            met.compare(name, &text);
            text.clear();
        }
        text = format!("{text}{next}\n");
    });
    met.compare(name, &text);
    met
}

/// Compares so many random scripts under each of the names, all at once.
pub fn compare_at_once(names: [&'static str; 2], scripts: u64, script: Generator) -> Met {
    let mut met = Met::default();
    let halves = names.map(|name| thread::spawn(move || compare_scripts(name, scripts, script)));
    for half in halves {
        let half = half.join().expect("a script is answered otherwise");
        met.operations.join(half.operations);
        met.numbers.join(half.numbers);
    }
    met
}

#[test]
fn random_scripts() {
    let met = compare_at_once(["scripts-1", "scripts-2"], 10_000, script);
    let all: Vec<u32> = (0..=18).chain([23]).collect();
    met.operations
        .finish("operations of scripts", "none", 5_000, &OPERATIONS);
    met.numbers
        .finish("answers to scripts", "good", 1_000, &all);
}

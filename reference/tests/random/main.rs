//! Random sheets, and lists of names: what 01 and 02 say must hold of each of them.

mod branches;
mod cloth;
mod convert;
mod kinds;
mod kinds_of_branches;
mod kinds_of_cloth;
mod kinds_of_convert;
mod kinds_of_reads;
mod kinds_of_starts;
mod layout;
mod lookup;
mod names;
mod orders;
mod reads;
mod sheets;
mod shelf;
mod starts;
mod values;
mod version;
mod wrong_branches;

use reference::judge::{judge, Moved, WORK};
use reference::random::{self, dice::mix, dice::Dice};
use reference::refusal::Refusal;
use reference::sheet::{self, Sheet};

const SHEETS: u64 = 5_000;

/// The seed of the random sheets; the variable REFERENCE_SEED gives another.
fn seed() -> u64 {
    let given = std::env::var("REFERENCE_SEED").ok();
    given.and_then(|text| text.parse().ok()).unwrap_or(2026)
}

/// Calls a check with each of the random sheets; prints a sheet that fails.
fn for_each_sheet(name: &str, check: &mut dyn FnMut(&Sheet, &mut Dice)) {
    let seed = seed();
    println!("{name}: seed {seed}, {SHEETS} sheets");
    for number in 0..SHEETS {
        let mut dice = Dice::new(mix(seed) ^ mix(number));
        let facts = random::sheet(&mut dice);
        let _failing = Failing(number, sheet::text(&facts));
        check(&facts, &mut dice);
    }
}

/// Prints its number and sheet if the check panics.
struct Failing(u64, String);

impl Drop for Failing {
    fn drop(&mut self) {
        if std::thread::panicking() {
            println!("seed {}, sheet number {}:\n{}", seed(), self.0, self.1);
        }
    }
}

fn judged(facts: &Sheet) -> Result<Moved, Refusal> {
    judge(facts, &mut [0; WORK])
}

fn as_bytes(order: &[usize]) -> Vec<u8> {
    order.iter().map(|&occurrence| occurrence as u8).collect()
}

/// All orders of these occurrences, in dictionary order.
fn permutations(rising: &[usize]) -> Vec<Vec<usize>> {
    if rising.is_empty() {
        return vec![vec![]];
    }
    let mut all = Vec::new();
    for (index, &first) in rising.iter().enumerate() {
        let rest = [&rising[..index], &rising[index + 1..]].concat();
        for list in permutations(&rest) {
            all.push([vec![first], list].concat());
        }
    }
    all
}

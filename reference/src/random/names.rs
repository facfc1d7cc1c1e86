//! Names of steps: most of them short, many long, at the limits of digits and of
//! bits, and some that end with the bits of another.

use super::dice::Dice;
use super::records::any;
use crate::sheet::{Sheet, Step};
use crate::version::Version;
use std::collections::BTreeMap;

/// Names are drawn by its limits.
const NAMES: Version = Version::PRESENT;

/// Where a name gets one digit more, or one bit more than 8, 16, 31 or 32.
const EDGES: [u64; 6] = [256, 65_536, 100_000, 1_000_000_000, 1 << 31, 1 << 32];

/// A name in its range, of any length.
pub fn any_name(dice: &mut Dice) -> u64 {
    match dice.below(20) {
        0..=13 => up_to(any(&[9, 99, 999, 9_999, 65_535], dice), dice),
        14..=17 => near(any(&EDGES, dice), dice),
        _ => up_to(any(&[9_999_999, NAMES.greatest_name], dice), dice),
    }
}

fn up_to(most: u64, dice: &mut Dice) -> u64 {
    1 + dice.roll() % most
}

/// One of the two names before an edge or of those at it.
fn near(edge: u64, dice: &mut Dice) -> u64 {
    let name = edge - 2 + dice.below(4) as u64;
    name.min(NAMES.greatest_name)
}

/// Another number with the same last bits, so many of them.
pub fn alike(number: u64, bits: u32, dice: &mut Dice) -> u64 {
    number ^ (dice.from_to(1, 3) as u64) << bits
}

/// A name that ends with the same 8 or 16 bits, or any.
pub fn other(name: u64, dice: &mut Dice) -> u64 {
    let bits = any(&[8, 16, 16], dice);
    let alike = alike(name, bits, dice);
    if NAMES.is_name(alike) && dice.chance(50) {
        alike
    } else {
        any_name(dice)
    }
}

/// A name that none of these is.
pub fn fresh(taken: &[u64], dice: &mut Dice) -> u64 {
    not_taken(taken, || match taken.len() {
        0 => any_name(dice),
        _ if dice.chance(60) => any_name(dice),
        _ => other(any(taken, dice), dice),
    })
}

/// The same with at most five digits; few of these are over 65,535.
fn fresh_of_five(taken: &[u64], dice: &mut Dice) -> u64 {
    not_taken(taken, || match dice.below(30) {
        0 => any(&[65_535, 65_536, 65_537, 99_999], dice),
        _ => up_to(any(&[99, 9_999, 65_535], dice), dice),
    })
}

/// Draws until a name is none of these.
pub(super) fn not_taken(taken: &[u64], mut draw: impl FnMut() -> u64) -> u64 {
    loop {
        let name = draw();
        if !taken.contains(&name) {
            return name;
        }
    }
}

/// Gives each name of the job a fresh one, the same wherever it stands.
pub fn rename(job: &mut Sheet, dice: &mut Dice) {
    rename_by(fresh, job, dice);
}

/// The same with names of at most five digits: sheets that most often read by 01's
/// version too.
pub fn shorten(job: &mut Sheet, dice: &mut Dice) {
    rename_by(fresh_of_five, job, dice);
}

/// A name that 01's layout can say, and that none of these is; some are its greatest.
fn fresh_of_01(taken: &[u64], dice: &mut Dice) -> u64 {
    not_taken(taken, || match dice.below(16) {
        0 => any(&[65_535, 65_535, 65_534, 32_768, 10_000, 9_999, 256], dice),
        _ => up_to(any(&[99, 9_999, 65_535], dice), dice),
    })
}

/// The same with names that 01's layout can say.
pub fn fit_01(job: &mut Sheet, dice: &mut Dice) {
    rename_by(fresh_of_01, job, dice);
}

fn rename_by(fresh: fn(&[u64], &mut Dice) -> u64, job: &mut Sheet, dice: &mut Dice) {
    let steps = job.old.steps.iter_mut().chain(&mut job.new.steps);
    let of_steps = steps.map(|step: &mut Step| &mut step.name);
    let mut names: BTreeMap<u64, u64> = BTreeMap::new();
    for name in of_steps.chain(&mut job.done) {
        let taken: Vec<u64> = names.values().copied().collect();
        *name = *names.entry(*name).or_insert_with(|| fresh(&taken, dice));
    }
}

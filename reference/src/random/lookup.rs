//! Random scripts of look-ups alone: a name among others (operation 24), and the
//! names compared for a job (operation 25).

pub mod jobs;
pub mod lists;

use super::dice::Dice;
use super::script::{ended, ENDING, MOST_BYTES};

/// Each script has so many operations; few end in the middle of one of them, or
/// with an argument past its limit, and have fewer answers.
pub const OPERATIONS: usize = 32;

/// How such an operation begins that has an argument past its limit, or that is none.
pub const PAST_A_LIMIT: [&str; 12] = [
    "24 101",
    "24 1 4294967296",
    "24 0 18446744073709551616",
    "24 0 0 4294967296",
    "25 4294967296",
    "25 1 18446744073709551616",
    "25 1 1 18446744073709551616",
    "25 4 1 65 65",
    "25 2 1 1 1 1 1 2 0 0 2",
    "25 1 1 0 0 1 1 0 0 101",
    "25 1 1 0 0 1 1 0 0 1 4294967296",
    "29",
];

/// A random script. A job that leaves no room for the operations after it has a
/// name among others in its place.
pub fn script(dice: &mut Dice) -> String {
    let mut text = String::new();
    for left in (0..OPERATIONS).rev() {
        let mut line = operation(dice);
        if text.len() + line.len() + left * lists::LONGEST + ENDING > MOST_BYTES {
            line = lists::operation(dice);
        }
        text += &line;
    }
    ended(text, &PAST_A_LIMIT, dice)
}

fn operation(dice: &mut Dice) -> String {
    if dice.chance(50) {
        lists::operation(dice)
    } else {
        jobs::operation(dice)
    }
}

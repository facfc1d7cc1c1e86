//! Random scripts of sheets that go between editions: up (operation 26), down (27),
//! and the way that the second line tells (28).

pub mod sheets;

use super::dice::Dice;
use super::records::any;
use super::script::{ended, some_byte, ENDING, LONGEST, MOST_BYTES};
use crate::convert::{convert, down, up, Way};
use crate::script::writing::{self, fill};
use crate::version::Version;

/// How such an operation begins that has an argument past its limit, or that is none.
pub const PAST_A_LIMIT: [&str; 13] = [
    "26 21001",
    "26 1 256",
    "26 0 21001",
    "26 0 0 256",
    "27 21001",
    "27 1 256",
    "27 0 21001",
    "27 0 0 256",
    "28 21001",
    "28 1 256",
    "28 0 21001",
    "28 0 0 256",
    "29",
];

/// A random script. A sheet that leaves too little room is left out.
pub fn script(dice: &mut Dice) -> String {
    let mut text = String::new();
    for _ in 0..dice.from_to(8, 16) {
        let line = operation(dice);
        if text.len() + line.len() + ENDING < MOST_BYTES {
            text += &line;
        }
    }
    ended(text, &PAST_A_LIMIT, dice)
}

fn operation(dice: &mut Dice) -> String {
    let kinds: [(u64, Way, usize); 3] = [(26, up, 95), (27, down, 5), (28, convert, 40)];
    let (number, way, of_01) = any(&[kinds[0], kinds[1], kinds[1], kinds[2], kinds[2]], dice);
    let version = if dice.chance(of_01) {
        Version::OF_01
    } else {
        Version::PRESENT
    };
    let sheet = sheets::bytes(&version, dice);
    let out = out(way, &sheet, dice);
    writing::convert(number, &sheet, out)
}

/// An out slice of the length needed, a byte off, too short, empty or far too long.
fn out(way: Way, sheet: &[u8], dice: &mut Dice) -> String {
    let given = sheet.len();
    let needed = way(sheet, &mut vec![0; LONGEST]).unwrap_or(given);
    let more = needed + dice.below(40);
    let less = needed.saturating_sub(1);
    let lengths = [
        needed,
        needed,
        needed,
        needed + 1,
        more,
        more,
        less,
        less,
        needed / 2,
        given,
        0,
        LONGEST,
    ];
    fill(any(&lengths, dice).min(LONGEST), some_byte(dice))
}

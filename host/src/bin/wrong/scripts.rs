//! Scripts and the second program's answers to them.

use crate::edit::root;
use crate::{chosen, chosen_branches, chosen_cloth, chosen_convert, chosen_lookups};
use crate::{chosen_marks, chosen_names, chosen_reads, chosen_shelves, chosen_starts};
use reference::random::dice::{mix, Dice};
use reference::random::{convert, lookup, script, shelf};
use reference::script::numbers::MOST_BYTES;
use reference::script::{answers, line};
use std::fs;

/// So many random scripts, each as long as drive takes; one of shelves is added, one of
/// look-ups and one of sheets between editions.
const SCRIPTS: u64 = 5;

/// A script, and each operation's number with the line of its answer.
pub struct Script {
    pub text: String,
    pub answers: Vec<(u64, String)>,
}

impl Script {
    fn of(text: String) -> Script {
        let lines = answers(&text).into_iter();
        let answers = lines.map(|(operation, numbers)| (operation, line(&numbers)));
        Script {
            answers: answers.collect(),
            text,
        }
    }

    /// What drive must write.
    pub fn answer(&self) -> String {
        self.answers.iter().map(|(_, line)| line.as_str()).collect()
    }

    /// The operation in whose answer this byte of the output stands: its place
    /// in the script, from 1, and its number.
    pub fn operation_at(&self, byte: usize) -> (usize, u64) {
        let mut end = 0;
        let mut places = self.answers.iter().enumerate();
        let found = places.find(|(_, (_, line))| {
            end += line.len();
            byte < end
        });
        found.map_or((0, 0), |(place, (operation, _))| (place + 1, *operation))
    }
}

/// Seven by hand, drive's own script among them; then random ones.
pub fn all() -> Vec<Script> {
    let own = fs::read_to_string(root().join("crates/drive/stdin")).expect("no script of drive's");
    let by_hand = [
        own + &chosen::script() + &chosen_shelves::script(),
        chosen_lookups::script() + &chosen_names::script(),
        chosen_starts::script(),
        chosen_reads::script(),
        chosen_convert::script(),
        chosen_branches::script(),
        chosen_cloth::script() + &chosen_marks::script() + TOO_LONG,
    ];
    assert!(by_hand.iter().all(|text| text.len() <= MOST_BYTES));
    let random = (0..SCRIPTS).map(|number| long(script, number));
    let shelves = long(shelf::script, SCRIPTS);
    let lookups = long(lookup::script, SCRIPTS + 1);
    let converted = long(convert::script, SCRIPTS + 2);
    let last = [shelves, lookups, converted];
    let texts = by_hand.into_iter().chain(random).chain(last);
    texts.map(Script::of).collect()
}

/// A sheet by value with an out slice of one byte more than the longest: it ends the script.
const TOO_LONG: &str = "8 1 1 0 0 1 1 0 0 0 21001 0\n";

/// An operation, to see whether the script before it ends with a whole one.
const FIRE: &str = "1 1 10 1 2 0 1 0\n";

/// Random scripts one after another, none of which ends in the middle of an operation.
fn long(script: fn(&mut Dice) -> String, number: u64) -> String {
    let mut text = String::new();
    let mut dice = Dice::new(mix(number));
    loop {
        let next = script(&mut dice) + "\n";
        if text.len() + next.len() > MOST_BYTES {
            return text;
        }
        if answers(&(next.clone() + FIRE)).len() > answers(&next).len() {
            text += &next;
        }
    }
}

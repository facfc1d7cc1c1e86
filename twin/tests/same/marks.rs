//! Marks: on some steps of random sheets, and ends of a step line that nearly have one.

use crate::{same, same_in_all_slices, Seed};
use reference::judge::WORK;
use reference::random::{self, dice::mix, dice::Dice};
use reference::sheet;

const SHEETS: u64 = 10_000;

/// The sheet with other marks. A name is marked in both routes or in neither, save
/// at times in one line.
fn marked(sheet: &str, dice: &mut Dice) -> String {
    let salt = dice.roll();
    let otherwise = dice.below(2 * sheet.lines().count());
    let mut text = String::new();
    for (at, line) in sheet.replace(" (cloth)", "").lines().enumerate() {
        let name = line.split(' ').nth(1).unwrap_or("");
        let hash = name
            .bytes()
            .fold(salt, |hash, byte| mix(hash ^ u64::from(byte)));
        let mark = (hash % 3 == 0) != (at == otherwise);
        match line.strip_suffix(')') {
            Some(open) if mark && line.starts_with("(step") => {
                text += &format!("{open} (cloth))\n")
            }
            _ => text += &format!("{line}\n"),
        }
    }
    text
}

#[test]
fn on_random_marks() {
    for number in 0..SHEETS {
        let _seed = Seed(number);
        let mut dice = Dice::new(mix(number));
        let text = sheet::text(&random::sheet(&mut dice));
        let sheet = marked(&text, &mut dice).into_bytes();
        same(&sheet, WORK, 16_384);
        if number % 10 == 0 {
            same_in_all_slices(&sheet);
        }
    }
}

/// What may stand where a step line ends, after the bracket of its write list.
const ENDS: [&str; 16] = [
    ")\n",
    " (cloth))\n",
    "",
    " ",
    "\n",
    " )\n",
    "(cloth))\n",
    "  (cloth))\n",
    " (cloth)\n",
    " (cloth) )\n",
    " (cloth )\n",
    " (cloth 1))\n",
    " (cloth) (cloth))\n",
    " (cloth)))\n",
    ") (cloth)\n",
    " (write))\n",
];

/// The first step of each route ends so; cut short at every byte too.
#[test]
fn at_the_ends_of_step_lines() {
    let line = |end| format!("(step 10 (in 0) (out 1) (read) (write 0){end}");
    let other = "(step 20 (in 1) (out 2) (read) (write) (cloth))\n";
    for old in ENDS {
        for new in ENDS {
            let (old, new) = (line(old), line(new));
            let done = "(job)\n(done 10)\n(done 20)\n";
            let [first, second] = ["(old 3)\n(start 0)\n", "(new 3)\n(start 0)\n"];
            let sheet = format!("{first}{old}{other}{second}{other}{new}{done}");
            for len in 0..=sheet.len() {
                same(&sheet.as_bytes()[..len], WORK, 1_024);
            }
        }
    }
}

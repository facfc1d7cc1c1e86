//! Damage to a sheet: bytes changed, cut and inserted, numbers, marks and start lines
//! changed, lines moved, doubled and left out.

use super::damage_start;
use super::dice::Dice;
use super::names;
use super::records::any;
use crate::sheet::MARK;
use std::ops::Range;

/// Words that numbers stand after.
const WORDS: [&[u8]; 9] = [
    b"old", b"new", b"start", b"step", b"in", b"out", b"read", b"write", b"done",
];

const SHORT: [&str; 13] = [
    "0", "1", "2", "3", "4", "8", "31", "32", "63", "64", "65", "00", "01",
];

/// Names of all lengths, numbers past them, and more digits than a number has.
const LONG: [&str; 12] = [
    "65535",
    "65536",
    "99999",
    "100000",
    "4294967294",
    "4294967295",
    "4294967296",
    "4294967297",
    "9999999999",
    "10000000000",
    "99999999999",
    "0123456789",
];

/// What may stand in the place of a mark: none, one, two, one with a letter missing,
/// too many or another, without its space or with two, with an entry, not closed.
const NEAR_A_MARK: [&str; 21] = [
    "",
    MARK,
    MARK,
    " (cloth) (cloth)",
    " (cloth)(cloth)",
    " (loth)",
    " (coth)",
    " (clth)",
    " (clo)",
    " (clot)",
    " (cloths)",
    " (Cloth)",
    " (CLOTH)",
    " (close)",
    "(cloth)",
    "  (cloth)",
    " (cloth )",
    " (cloth 1)",
    " (cloth",
    " cloth",
    " ",
];

/// The sheet with one to three kinds of damage.
pub fn damage(sheet: &[u8], dice: &mut Dice) -> Vec<u8> {
    let mut bytes = sheet.to_vec();
    for _ in 0..[1, 1, 1, 2, 2, 3][dice.below(6)] {
        bytes = match dice.below(11) {
            0 => damage_bytes(bytes, dice),
            1..=5 => change_number(bytes, dice),
            6 => damage_mark(bytes, dice),
            7..=8 => damage_start::damage(lines_of(&bytes), dice).concat(),
            _ => damage_lines(bytes, dice),
        };
    }
    bytes
}

/// A byte that sheets hold, or any byte.
fn some_byte(dice: &mut Dice) -> u8 {
    let common = b"()\n 0123456789oldnewstartstepinoutreadwriteclothjobdone";
    if dice.chance(80) {
        common[dice.below(common.len())]
    } else {
        dice.below(256) as u8
    }
}

/// One byte changed or inserted, or some cut, at times all to the end.
fn damage_bytes(mut bytes: Vec<u8>, dice: &mut Dice) -> Vec<u8> {
    let at = dice.below(bytes.len() + 1);
    let byte = some_byte(dice);
    match dice.below(4) {
        0 => bytes.insert(at, byte),
        1 => bytes.truncate(at),
        2 => {
            let end = bytes.len().min(at + dice.from_to(1, 4));
            bytes.drain(at..end);
        }
        _ => {
            if let Some(changed) = bytes.get_mut(at) {
                *changed = byte;
            }
        }
    }
    bytes
}

/// One number becomes another; half of them stand after a word drawn first.
fn change_number(bytes: Vec<u8>, dice: &mut Dice) -> Vec<u8> {
    let mut numbers = numbers(&bytes);
    if numbers.is_empty() {
        return bytes;
    }
    if dice.chance(50) {
        let word = any(&WORDS, dice);
        let after_word = |number: &Range<usize>| word_before(&bytes, number.start) == word;
        let some: Vec<_> = numbers.iter().filter(|n| after_word(n)).cloned().collect();
        numbers = if some.is_empty() { numbers } else { some };
    }
    let number = numbers[dice.below(numbers.len())].clone();
    let other = other_number(&bytes[number.clone()], dice);
    let rest = &bytes[number.end..];
    [&bytes[..number.start], other.as_bytes(), rest].concat()
}

/// Where digits stand, as many in a row as there are.
fn numbers(bytes: &[u8]) -> Vec<Range<usize>> {
    let digit = |at: usize| bytes.get(at).is_some_and(u8::is_ascii_digit);
    let begins = (0..bytes.len()).filter(|&at| digit(at) && (at == 0 || !digit(at - 1)));
    let end = |begin| (begin..).find(|&at| !digit(at)).unwrap_or(begin);
    begins.map(|begin| begin..end(begin)).collect()
}

/// The word of the form that this byte stands in, if the form has one.
fn word_before(bytes: &[u8], at: usize) -> &[u8] {
    let open = bytes[..at].iter().rposition(|&byte| byte == b'(');
    let form = &bytes[open.map_or(at, |open| open + 1)..at];
    form.split(|byte| !byte.is_ascii_lowercase())
        .next()
        .unwrap_or(form)
}

/// A number at or past an edge of its range, at times one made of these digits.
fn other_number(digits: &[u8], dice: &mut Dice) -> String {
    let digits = String::from_utf8_lossy(digits);
    let length = any(&[5, 6, 10, 11], dice);
    match dice.below(20) {
        0..=9 => any(&SHORT, dice).to_string(),
        10..=14 => any(&LONG, dice).to_string(),
        15 => format!("{digits:0>length$}"),
        16 => format!("{digits:0<length$}"),
        _ => {
            let number = digits.parse().unwrap_or(1);
            names::alike(number, any(&[8, 16, 16, 32, 32], dice), dice).to_string()
        }
    }
}

/// A step's mark is changed, or put in another place.
fn damage_mark(bytes: Vec<u8>, dice: &mut Dice) -> Vec<u8> {
    let mut lines = lines_of(&bytes);
    let is_step = |at: &usize| lines[*at].starts_with(b"(step");
    let steps: Vec<usize> = (0..lines.len()).filter(is_step).collect();
    if steps.is_empty() {
        return bytes;
    }
    let is_marked = |at: &usize| mark_in(&lines[*at]).is_some();
    let marked: Vec<usize> = steps.iter().copied().filter(is_marked).collect();
    let some = !marked.is_empty() && dice.chance(70);
    let at = any(if some { &marked } else { &steps }, dice);
    let mut line = lines[at].clone();
    if let Some(mark) = mark_in(&line) {
        line.drain(mark..mark + MARK.len());
    }
    let (place, text) = if dice.chance(70) {
        (line.len().saturating_sub(2), any(&NEAR_A_MARK, dice))
    } else {
        (another_place(&line, dice), MARK)
    };
    line.splice(place..place, text.bytes());
    lines[at] = line;
    lines.concat()
}

/// Where the mark stands in a line.
fn mark_in(line: &[u8]) -> Option<usize> {
    line.windows(MARK.len())
        .position(|part| part == MARK.as_bytes())
}

/// Before a form or an entry, at the line's beginning or behind its bracket; half of
/// them before the last form, the write list.
fn another_place(line: &[u8], dice: &mut Dice) -> usize {
    let spaces = (0..line.len()).filter(|&at| line[at] == b' ');
    let places: Vec<usize> = spaces.chain([0, line.len() - 1]).collect();
    let last = line.windows(2).rposition(|two| two == b" (");
    match last {
        Some(last) if dice.chance(50) => last,
        _ => any(&places, dice),
    }
}

fn lines_of(bytes: &[u8]) -> Vec<Vec<u8>> {
    let lines = bytes.split_inclusive(|&byte| byte == b'\n');
    lines.map(<[u8]>::to_vec).collect()
}

/// One line moved, doubled, doubled many times or left out.
fn damage_lines(bytes: Vec<u8>, dice: &mut Dice) -> Vec<u8> {
    let mut lines = lines_of(&bytes);
    if lines.is_empty() {
        return bytes;
    }
    let at = dice.below(lines.len());
    let line = lines[at].clone();
    match dice.below(8) {
        0..=1 => {
            lines.remove(at);
        }
        2..=4 => {
            lines.remove(at);
            let to = near_one_alike(&lines, &line, dice);
            lines.insert(to, line);
        }
        5..=6 => lines.insert(near_one_alike(&lines, &line, dice), line),
        _ => {
            lines.splice(at..at, vec![line; 65]);
        }
    }
    lines.concat()
}

/// Most often where another line of the same word stands, else anywhere.
fn near_one_alike(lines: &[Vec<u8>], line: &[u8], dice: &mut Dice) -> usize {
    let alike = |at: &usize| lines[*at].get(..5) == line.get(..5);
    let places: Vec<usize> = (0..lines.len()).filter(alike).collect();
    if places.is_empty() || dice.chance(20) {
        dice.below(lines.len() + 1)
    } else {
        places[dice.below(places.len())]
    }
}

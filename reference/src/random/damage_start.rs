//! Damage to a start line: entries that fall, repeat or pass N, none at all, a line
//! that is left out, doubled or put elsewhere, and texts that nearly are one.

use super::dice::Dice;
use super::records::any;
use crate::sheet::form;

/// What may stand in the place of a start line, with its entries for `#`: another
/// word, a letter missing, too many or another, a bracket, a space or an end of line
/// that is missing or too many, a form inside it, another form behind it.
const NEAR_A_START: [&str; 24] = [
    "(start #",
    "(start#)\n",
    "(start  #)\n",
    "(start # )\n",
    "(start #) \n",
    "(start #))\n",
    "(start #)",
    "(start #)\n\n",
    "(start (#))\n",
    "(start #) (start #)\n",
    "(start #) (cloth)\n",
    "(start #)\r\n",
    "start #)\n",
    " (start #)\n",
    "(sart #)\n",
    "(star #)\n",
    "(stat #)\n",
    "(starts #)\n",
    "(Start #)\n",
    "(START #)\n",
    "(step #)\n",
    "(stop #)\n",
    "(in #)\n",
    "(s#)\n",
];

/// The lines with one start line damaged; as they were where there is none.
pub(super) fn damage(mut lines: Vec<Vec<u8>>, dice: &mut Dice) -> Vec<Vec<u8>> {
    let starts = starts(&lines);
    if starts.is_empty() {
        return lines;
    }
    let at = any(&starts, dice);
    let (places, entries) = (places(&lines, at), entries(&lines[at]));
    match dice.below(17) {
        0..=9 => lines[at] = line(&other_entries(places, entries, dice)),
        10..=11 => lines[at] = near_a_start(&entries, dice),
        12 => {
            lines.remove(at);
        }
        13 => {
            let line = lines.remove(at);
            put_elsewhere(&mut lines, at, line, dice);
        }
        14..=15 => {
            let line = lines[at].clone();
            put_elsewhere(&mut lines, at, line, dice);
        }
        // Both start lines change places.
        _ => lines.swap(starts[0], starts[starts.len() - 1]),
    }
    lines
}

/// Where start lines stand.
fn starts(lines: &[Vec<u8>]) -> Vec<usize> {
    let is_start = |at: &usize| lines[*at].starts_with(b"(start");
    (0..lines.len()).filter(is_start).collect()
}

/// The numbers of a line; those that aren't of 64 bits are left out.
fn entries(line: &[u8]) -> Vec<u64> {
    let text = String::from_utf8_lossy(line);
    let words = text.split(|c: char| !c.is_ascii_digit());
    words.filter_map(|word| word.parse().ok()).collect()
}

/// The place count of the head before the line, if it can be read.
fn places(lines: &[Vec<u8>], at: usize) -> u64 {
    let head = at.checked_sub(1).map(|head| entries(&lines[head]));
    let count = head.and_then(|numbers| numbers.first().copied());
    count.unwrap_or(4).clamp(1, 64)
}

fn line(entries: &[u64]) -> Vec<u8> {
    format!("{}\n", form("start", entries)).into_bytes()
}

/// Entries that fall or repeat, that pass N or a number's range, both, none, all, or
/// any that rise.
fn other_entries(places: u64, entries: Vec<u64>, dice: &mut Dice) -> Vec<u64> {
    let last = entries.last().copied().unwrap_or(0);
    let place = dice.roll() % places;
    let above = [63, 64, 65, 4_294_967_295, 4_294_967_296, 9_999_999_999];
    let past = any(&[places, places, places + 1, any(&above, dice)], dice);
    let more = |entry| [&entries[..], &[entry]].concat();
    match dice.below(13) {
        0 => entries.into_iter().rev().collect(),
        1 => more(place),
        2..=3 => more(last),
        4 => vec![places - 1, place],
        5..=6 => more(past),
        7 => vec![past],
        8 => [&[past], &entries[..]].concat(),
        9 => vec![],
        10 => (0..places).collect(),
        11 => (0..places).chain([place]).collect(),
        _ => (0..places).filter(|_| dice.chance(40)).collect(),
    }
}

fn near_a_start(entries: &[u64], dice: &mut Dice) -> Vec<u8> {
    let words: Vec<String> = entries.iter().map(u64::to_string).collect();
    let near = any(&NEAR_A_START, dice);
    near.replace('#', &words.join(" ")).into_bytes()
}

/// The line goes before its head, behind the line after it, to the end, or anywhere.
fn put_elsewhere(lines: &mut Vec<Vec<u8>>, at: usize, line: Vec<u8>, dice: &mut Dice) {
    let (first, end) = (at.saturating_sub(1), lines.len());
    let to = any(&[first, at + 1, end, dice.below(end + 1)], dice).min(end);
    lines.insert(to, line);
}

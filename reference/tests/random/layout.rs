//! The layout once more, as a regular expression. Its derivative by a byte says
//! how sheets that begin so go on; row 1's offset is where none does.

use reference::layout;
use reference::random::{self, damage::damage, dice::Dice, names::shorten};
use reference::sheet;
use reference::version::Version;
use std::rc::Rc;

/// A set of texts.
#[derive(Clone)]
enum Texts {
    None,
    Empty,
    Byte(u8, u8),
    Then(Rc<Texts>, Rc<Texts>),
    Or(Rc<Texts>, Rc<Texts>),
    Many(Rc<Texts>),
}

use Texts::{Byte, Empty, Many, None, Or, Then};

fn then(first: Texts, second: Texts) -> Texts {
    match (first, second) {
        (None, _) | (_, None) => None,
        (Empty, second) => second,
        (first, second) => Then(Rc::new(first), Rc::new(second)),
    }
}

fn or(first: Texts, second: Texts) -> Texts {
    match (first, second) {
        (None, other) | (other, None) => other,
        (first, second) => Or(Rc::new(first), Rc::new(second)),
    }
}

fn many(texts: Texts) -> Texts {
    Many(Rc::new(texts))
}

fn exactly(text: &str) -> Texts {
    let bytes = text.bytes().rev();
    bytes.fold(Empty, |rest, byte| then(Byte(byte, byte), rest))
}

fn chain(parts: Vec<Texts>) -> Texts {
    parts
        .into_iter()
        .rev()
        .fold(Empty, |rest, part| then(part, rest))
}

/// Whether the empty text is in the set.
fn holds_empty(texts: &Texts) -> bool {
    match texts {
        None | Byte(..) => false,
        Empty | Many(_) => true,
        Then(first, second) => holds_empty(first) && holds_empty(second),
        Or(first, second) => holds_empty(first) || holds_empty(second),
    }
}

/// How the texts that begin with this byte go on.
fn after(texts: &Texts, byte: u8) -> Texts {
    match texts {
        None | Empty => None,
        Byte(low, high) if (*low..=*high).contains(&byte) => Empty,
        Byte(..) => None,
        Then(first, second) => {
            let stays = then(after(first, byte), (**second).clone());
            if holds_empty(first) {
                or(stays, after(second, byte))
            } else {
                stays
            }
        }
        Or(first, second) => or(after(first, byte), after(second, byte)),
        Many(one) => then(after(one, byte), texts.clone()),
    }
}

/// One to so many digits and no leading zero, save 0 itself.
fn number(most: usize) -> Texts {
    let more = |rest| or(Empty, then(Byte(b'0', b'9'), rest));
    let others = (1..most).fold(Empty, |rest, _| more(rest));
    or(exactly("0"), then(Byte(b'1', b'9'), others))
}

fn list(word: &str, most: usize) -> Texts {
    let entries = many(then(exactly(" "), number(most)));
    chain(vec![exactly(&format!("({word}")), entries, exactly(")")])
}

fn line(word: &str, most: usize) -> Texts {
    let head = exactly(&format!("({word} "));
    chain(vec![head, number(most), exactly(")\n")])
}

/// All sheets whose numbers have at most so many digits; steps may have this at
/// their end, and heads are followed by such a line.
fn sheets(most: usize, mark: &Texts, start: &Texts) -> Texts {
    let step = || {
        let lists = ["in", "out", "read", "write"];
        let lists = lists.map(|word| then(exactly(" "), list(word, most)));
        let [ins, outs, reads, writes] = lists;
        let head = then(exactly("(step "), number(most));
        let end = then(or(Empty, mark.clone()), exactly(")\n"));
        chain(vec![head, ins, outs, reads, writes, end])
    };
    let route = |word: &str| chain(vec![line(word, most), start.clone(), many(step())]);
    let job = then(exactly("(job)\n"), many(line("done", most)));
    chain(vec![route("old"), route("new"), job])
}

/// Row 1's second number for these bytes, if they are none of the sheets.
fn breaks_at(mut left: Texts, bytes: &[u8]) -> Option<usize> {
    for (offset, &byte) in bytes.iter().enumerate() {
        left = after(&left, byte);
        if matches!(left, None) {
            return Some(offset);
        }
    }
    (!holds_empty(&left)).then_some(bytes.len())
}

/// How the sheet reads by a version that has these sheets: whole, broken, or ended
/// early.
fn compare(bytes: &[u8], version: &Version, sheets: &Texts) -> usize {
    let read = layout::read(bytes, version);
    let offset = read.err().map(|refusal| refusal.second);
    let text = String::from_utf8_lossy(bytes);
    assert_eq!(offset, breaks_at(sheets.clone(), bytes), "of sheet\n{text}");
    match offset {
        Option::None => 0,
        Some(offset) => 1 + usize::from(offset == bytes.len()),
    }
}

/// The version with start lines where this one has none, and without where it has.
fn swapped(version: &Version) -> Version {
    let start = !version.start;
    Version { start, ..*version }
}

#[test]
fn row_1_is_where_no_sheet_begins_so() {
    let seed = crate::seed();
    println!("layout: seed {seed}, 1,500 sheets");
    let start = then(list("start", 10), exactly("\n"));
    let present = (Version::PRESENT, 10, exactly(" (cloth)"), start);
    let of_01 = (Version::OF_01, 5, None, Empty);
    for (version, most, mark, start) in [present, of_01] {
        let sheets = sheets(most, &mark, &start);
        let mut dice = Dice::new(seed);
        let mut counts = [0; 3];
        for _ in 0..1_500 {
            let mut facts = random::sheet(&mut dice);
            if dice.chance(50) {
                shorten(&mut facts, &mut dice);
            }
            let other = dice.chance(5);
            let written = if other { swapped(&version) } else { version };
            let text = sheet::text_by(&facts, &written);
            let bytes = damage(text.as_bytes(), &mut dice);
            counts[compare(&bytes, &version, &sheets)] += 1;
        }
        println!("{most} digits: whole, broken, ended early: {counts:?}");
        assert!(counts.iter().all(|&count| count > 5));
    }
}

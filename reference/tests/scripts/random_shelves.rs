//! Random scripts of shelves: which rows they meet, and their answers held to
//! 02's words read directly, over shelves as the answers show them.

use crate::common::{counted, padded, slice, text, BY_VALUE};
use crate::direct::{self, Job, Refusal, Step};
use crate::random::{arguments, draw, operations_of, outcome, Answered, Words, MOVED};
use reference::random::script::MOST_BYTES;
use reference::random::shelf::script;
use reference::script::{answer, line};
use std::collections::BTreeMap;
use std::sync::OnceLock;

const SCRIPTS: u64 = 300;

/// Each row, 0 for a success, must be met so many times.
const LEAST: usize = 10;

const HAND_IN: u64 = 20;
const PUT: u64 = 21;
const JUDGE: u64 = 22;

/// A full shelf, and a bad one.
const FULL: Refusal = [21, 0];
const BAD: Refusal = [21, 1];

/// The random scripts, drawn and answered once for all tests.
fn scripts() -> &'static [Answered] {
    static ALL: OnceLock<Vec<Answered>> = OnceLock::new();
    ALL.get_or_init(|| draw(SCRIPTS, script))
}

/// An entry of a shelf: all that an answer shows of it.
#[derive(Clone, Debug, PartialEq)]
struct Entry {
    number: u64,
    places: u64,
    start: u64,
    len: u64,
    records: Vec<u64>,
}

#[derive(Clone, Debug, PartialEq)]
struct Shelf {
    len: u64,
    entries: Vec<Entry>,
}

impl Entry {
    fn blank() -> Entry {
        Entry {
            number: 0,
            places: 0,
            start: 0,
            len: 0,
            records: vec![0; BY_VALUE],
        }
    }

    /// The next entry that an answer shows.
    fn shown(numbers: &mut impl Iterator<Item = u64>) -> Entry {
        let mut next = || numbers.next().unwrap();
        let [number, places, start, len, length] = [(); 5].map(|()| next());
        assert_eq!(length, BY_VALUE as u64);
        let mut records = Vec::new();
        while records.len() < BY_VALUE {
            let (count, one) = (next(), next());
            assert!(count > 0 && records.last() != Some(&one));
            records.resize(records.len() + count as usize, one);
        }
        assert_eq!(records.len(), BY_VALUE);
        Entry {
            number,
            places,
            start,
            len,
            records,
        }
    }

    /// The next number and route by value that a script gives.
    fn given(words: &mut Words) -> Entry {
        let [number, places, start, len] = [(); 4].map(|()| words.next());
        let count = 6 * words.next();
        let records: Vec<u64> = (0..count).map(|_| words.next()).collect();
        Entry {
            number,
            places,
            start,
            len,
            records: padded(&records, BY_VALUE),
        }
    }

    fn by_value(&self) -> String {
        let head = text(&[self.places, self.start, self.len]);
        format!("{head} 64 {}", text(&self.records))
    }

    fn route(&self) -> direct::Route {
        let records = self.records.chunks(6);
        let mut steps: Vec<Step> = records.map(|six| six.try_into().unwrap()).collect();
        steps.resize(self.len.min(70) as usize, [0; 6]);
        direct::Route {
            places: self.places,
            start: self.start,
            steps,
        }
    }

    /// The first of the rows 4, 2, 3, 5, 6, 7 and 23 that an old route meets: none
    /// comes from the new one, and nothing is done.
    fn refused_as_old(&self) -> Option<Refusal> {
        let new = direct::Route {
            places: 2,
            start: 1,
            steps: vec![[1, 1, 2, 0, 0, 0]],
        };
        let (old, done) = (self.route(), vec![]);
        Job { old, new, done }.refused_to_9()
    }
}

impl Shelf {
    fn empty() -> Shelf {
        let entries = vec![Entry::blank(); 8];
        Shelf { len: 0, entries }
    }

    fn shown(numbers: &[u64]) -> Shelf {
        let mut rest = numbers[1..].iter().copied();
        let entries = (0..8).map(|_| Entry::shown(&mut rest)).collect();
        assert_eq!(rest.next(), None);
        let len = numbers[0];
        Shelf { len, entries }
    }

    fn given(words: &mut Words) -> Shelf {
        let (len, count) = (words.next(), words.next());
        let mut entries: Vec<Entry> = (0..count).map(|_| Entry::given(words)).collect();
        entries.resize(8, Entry::blank());
        Shelf { len, entries }
    }

    /// The editions on it; all entries where it says that there are more.
    fn stored(&self) -> &[Entry] {
        &self.entries[..self.len.min(8) as usize]
    }

    /// What is wrong with it: more than one thing, perhaps.
    fn faults(&self) -> Vec<&'static str> {
        let numbers: Vec<u64> = self.stored().iter().map(|e| e.number).collect();
        let pair = |wrong: fn(u64, u64) -> bool| numbers.windows(2).any(|n| wrong(n[0], n[1]));
        let faults = [
            (self.len > 8, "over 8"),
            (numbers.contains(&0), "number 0"),
            (numbers.iter().any(|&n| n > 65_535), "over 65,535"),
            (pair(|one, next| one == next), "equal"),
            (pair(|one, next| one > next), "falling"),
        ];
        let met = faults.into_iter().filter(|(met, _)| *met);
        met.map(|(_, fault)| fault).collect()
    }

    fn find(&self, number: u64) -> Option<&Entry> {
        self.stored().iter().find(|entry| entry.number == number)
    }

    /// The row that put meets, if any.
    fn refused(&self, edition: &Entry) -> Option<Refusal> {
        let last = self.stored().last().map_or(0, |entry| entry.number);
        let number = edition.number;
        if !self.faults().is_empty() {
            Some(BAD)
        } else if number == 0 || number > 65_535 || number <= last {
            Some([20, 0])
        } else if self.len == 8 {
            Some(FULL)
        } else {
            edition.refused_as_old()
        }
    }

    /// Put's answer, and the shelf that it hands back.
    fn put(&self, edition: Entry) -> (Refusal, Shelf) {
        let mut shelf = self.clone();
        let refused = self.refused(&edition);
        if refused.is_none() {
            shelf.entries[self.len as usize] = edition;
            shelf.len += 1;
        }
        (refused.unwrap_or([0, 0]), shelf)
    }

    /// The whole line of judge: a refusal of the shelf's own, or what operation
    /// 5 answers for the two routes.
    fn judge(&self, words: &mut Words) -> String {
        let (edition, target) = (words.next(), words.next());
        let done = words.many();
        let (length, byte) = (words.next(), words.next());
        let unchanged = slice(&vec![byte; length as usize]);
        let refused = |refusal| line(&[padded(refusal, 166), unchanged.clone()].concat());
        if length < 8_192 {
            return refused(&[14, 0]);
        }
        if !self.faults().is_empty() {
            return refused(&BAD);
        }
        let (Some(old), Some(new)) = (self.find(edition), self.find(target)) else {
            return refused(&[19, 0]);
        };
        if target <= edition {
            return refused(&[19, 0]);
        }
        let routes = [old.by_value(), new.by_value()].join(" ");
        answer(&format!("5 {routes} {} {length} {byte}", counted(&done)))
    }
}

/// The routes that are put, with the answers.
pub fn puts() -> impl Iterator<Item = (direct::Route, &'static [u64])> {
    let those = operations_of(scripts()).filter(|(_, operation, _)| *operation == PUT);
    those.map(|(line, _, numbers)| (Entry::given(&mut arguments(line)).route(), numbers))
}

/// The jobs between two editions that are on a shelf, the target later, with the answers.
pub fn between() -> Vec<(Job, &'static [u64])> {
    let mut all = Vec::new();
    for script in scripts() {
        let mut shelf = Shelf::empty();
        for (text, operation, numbers) in operations_of(std::slice::from_ref(script)) {
            let mut words = arguments(text);
            match operation {
                HAND_IN => shelf = Shelf::given(&mut words),
                PUT => shelf = Shelf::shown(&numbers[2..]),
                JUDGE if !matches!(numbers[0], 14 | 19 | 21) => {
                    let pair = [words.next(), words.next()];
                    let [old, new] = pair.map(|number| shelf.find(number).unwrap().route());
                    let done = words.many();
                    all.push((Job { old, new, done }, numbers));
                }
                _ => {}
            }
        }
    }
    all
}

/// What an operation's answer says: its number, and its second one after a 21.
fn row(operation: u64, numbers: &[u64]) -> Refusal {
    match (operation, numbers[0]) {
        (PUT | JUDGE, 21) => [21, numbers[1]],
        (_, number) => [number, 0],
    }
}

#[test]
fn every_row_is_met_often() {
    let mut counts: BTreeMap<(u64, Refusal), usize> = BTreeMap::new();
    for (script, answers) in scripts() {
        assert!(script.len() < MOST_BYTES);
        for (operation, numbers) in answers {
            let met = (*operation, row(*operation, numbers));
            *counts.entry(met).or_default() += 1;
        }
    }
    let plain = |rows: &[u64]| rows.iter().map(|&row| [row, 0]).collect::<Vec<_>>();
    let put = plain(&[0, 2, 3, 4, 5, 6, 7, 20, 23]);
    let judge = plain(&[0, 2, 3, 4, 5, 6, 7, 8, 9, 10, 11, 12, 13, 14, 19, 23]);
    let all = [
        (PUT, [put, vec![FULL, BAD]].concat()),
        (JUDGE, [judge, vec![BAD]].concat()),
    ];
    for (operation, rows) in all {
        let met = counts.iter().filter(|((of, _), _)| *of == operation);
        let met: BTreeMap<Refusal, usize> = met.map(|((_, row), count)| (*row, *count)).collect();
        println!("operation {operation} by row: {met:?}");
        assert!(met.keys().all(|row| rows.contains(row)));
        for row in rows {
            assert!(met.get(&row) >= Some(&LEAST), "{operation}: {row:?}");
        }
    }
}

#[test]
fn jobs_move_in_every_way() {
    let mut counts: BTreeMap<String, usize> = BTreeMap::new();
    for (line, operation, numbers) in operations_of(scripts()) {
        if operation == JUDGE && !line.ends_with(" 0") {
            *counts.entry(outcome(numbers)).or_default() += 1;
        }
    }
    println!("{counts:?}");
    assert!(MOVED.iter().all(|way| counts.get(*way) >= Some(&LEAST)));
}

/// Shelves handed in have every fault, wrong routes and entries past `len`.
#[test]
fn shelves_are_bad_in_every_way() {
    let mut counts: BTreeMap<&str, usize> = BTreeMap::new();
    for (_, operation, numbers) in operations_of(scripts()) {
        if operation != HAND_IN {
            continue;
        }
        let shelf = Shelf::shown(numbers);
        let faults = shelf.faults();
        let len = shelf.stored().len();
        let past = shelf.entries[len..].iter().any(|e| *e != Entry::blank());
        let wrong = |entry: &Entry| entry.refused_as_old().is_some();
        let long = |entry: &Entry| entry.records.iter().step_by(6).any(|&name| name > 65_535);
        let kinds = [
            (faults.is_empty(), "good"),
            (faults.is_empty() && len == 8, "full"),
            (past, "entries past len"),
            (shelf.entries.iter().any(|e| e.len > 64), "route of over 64"),
            (shelf.stored().iter().any(wrong), "wrong route"),
            (shelf.stored().iter().any(long), "long name"),
        ];
        let met = kinds.into_iter().filter(|(met, _)| *met);
        for kind in met.map(|(_, kind)| kind).chain(faults) {
            *counts.entry(kind).or_default() += 1;
        }
    }
    println!("shelves handed in: {counts:?}");
    assert_eq!(counts.len(), 11);
    assert!(counts.values().all(|count| *count >= LEAST));
}

#[test]
fn answers_are_what_the_words_say() {
    let mut checked = 0;
    for script in scripts() {
        let mut shelf = Shelf::empty();
        for (text, operation, numbers) in operations_of(std::slice::from_ref(script)) {
            check(&mut shelf, text, operation, numbers);
            checked += usize::from(operation >= HAND_IN);
        }
    }
    println!("{checked} checked");
    assert!(checked > 5_000);
}

/// Holds an answer to the shelf in hand, which is then the one handed back.
fn check(shelf: &mut Shelf, text: &str, operation: u64, numbers: &[u64]) {
    let mut words = arguments(text);
    match operation {
        HAND_IN => {
            *shelf = Shelf::given(&mut words);
            assert_eq!(Shelf::shown(numbers), *shelf, "of {text}");
        }
        PUT => {
            let (number, after) = shelf.put(Entry::given(&mut words));
            assert_eq!(numbers[..2], number, "of {text}");
            assert_eq!(Shelf::shown(&numbers[2..]), after, "of {text}");
            *shelf = after;
        }
        JUDGE => assert_eq!(line(numbers), shelf.judge(&mut words), "of {text}"),
        _ => {}
    }
}

//! Random scripts: which rows they meet, and their answers held to 01's
//! definitions read directly.

use crate::common::{counted, padded, slice, text, BY_VALUE};
use crate::direct::{fire, Job, List, Refusal, Route, Step};
use reference::random::dice::{mix, Dice};
use reference::random::script::{script, MOST_BYTES};
use reference::script::{answer, answers};
use std::collections::BTreeMap;
use std::sync::OnceLock;

const SCRIPTS: u64 = 2_500;

/// The seed of the random scripts; the variable REFERENCE_SEED gives another.
fn seed() -> u64 {
    let given = std::env::var("REFERENCE_SEED").ok();
    given.and_then(|text| text.parse().ok()).unwrap_or(2026)
}

/// A script, and each operation's number and answer.
pub type Answered = (String, Vec<(u64, Vec<u64>)>);

/// So many random scripts, each with its answers.
pub fn draw(scripts: u64, script: fn(&mut Dice) -> String) -> Vec<Answered> {
    println!("seed {}, {scripts} scripts", seed());
    let texts = (0..scripts).map(|number| script(&mut Dice::new(mix(seed()) ^ mix(number))));
    texts.map(|text| (text.clone(), answers(&text))).collect()
}

/// The random scripts, drawn and answered once for all tests.
fn scripts() -> &'static [Answered] {
    static ALL: OnceLock<Vec<Answered>> = OnceLock::new();
    ALL.get_or_init(|| draw(SCRIPTS, script))
}

/// The operations of those of the scripts that are whole, each with its line
/// and its answer.
pub fn operations_of(scripts: &[Answered]) -> impl Iterator<Item = (&str, u64, &[u64])> {
    let whole = |(text, answers): &&Answered| text.lines().count() == answers.len();
    scripts.iter().filter(whole).flat_map(|(text, answers)| {
        let lines = text.lines().zip(answers);
        lines.map(|(line, (operation, numbers))| (line, *operation, &numbers[..]))
    })
}

pub fn operations() -> impl Iterator<Item = (&'static str, u64, &'static [u64])> {
    operations_of(scripts())
}

/// The rows that each operation can meet, 0 for a success.
const ROWS: [(u64, &[u64]); 16] = [
    (1, &[0, 18]),
    (2, &[0, 2, 3, 4, 5, 6, 7, 8, 9, 23]),
    (3, &[0, 2, 3, 4, 5, 6, 7, 8, 9, 23]),
    (4, &[0, 2, 3, 4, 5, 6, 7, 8, 9, 10, 11, 12, 16, 17, 18, 23]),
    (5, &[0, 2, 3, 4, 5, 6, 7, 8, 9, 10, 11, 12, 13, 14, 23]),
    (6, &[0, 1, 2, 3, 4, 5]),
    (8, &[0, 2, 3, 4, 5, 15]),
    (9, &[0, 14, 15]),
    (
        10,
        &[0, 1, 2, 3, 4, 5, 6, 7, 8, 9, 10, 11, 12, 16, 17, 18, 23],
    ),
    (12, &[0, 2, 3, 4, 5, 6, 7, 8, 9, 23]),
    (13, &[0, 2, 3, 4, 5, 6, 7, 8, 9, 23]),
    (14, &[0, 2, 3, 4, 5, 6, 7, 8, 9, 10, 11, 12, 16, 17, 18, 23]),
    (15, &[0, 2, 3, 4, 5, 6, 7, 8, 9, 10, 11, 12, 13, 14, 23]),
    (16, &[0, 1, 2, 3, 4, 5, 15]),
    (18, &[0, 2, 3, 4, 5, 15]),
    (23, &[0, 1, 2, 3, 4, 5]),
];

#[test]
fn a_seed_gives_one_script() {
    let draw = |seed| script(&mut Dice::new(seed));
    assert_eq!(draw(5), draw(5));
    assert_ne!(draw(5), draw(6));
}

#[test]
fn every_operation_meets_each_of_its_rows() {
    let mut counts: BTreeMap<(u64, u64), usize> = BTreeMap::new();
    for (script, answers) in scripts() {
        assert!(script.len() < MOST_BYTES);
        for (operation, numbers) in answers {
            *counts.entry((*operation, numbers[0])).or_default() += 1;
        }
    }
    for (operation, rows) in ROWS {
        let count = |row: &u64| counts.get(&(operation, *row)).copied().unwrap_or(0);
        let line: Vec<String> = rows.iter().map(|r| format!("{r}: {}", count(r))).collect();
        println!("operation {operation:2} by row: {}", line.join(", "));
    }
    for (operation, rows) in ROWS {
        for row in rows {
            let met = counts.contains_key(&(operation, *row));
            assert!(met, "operation {operation}, row {row}");
        }
        let others = |(of, row): &&(u64, u64)| *of == operation && !rows.contains(row);
        assert_eq!(counts.keys().find(others), None);
    }
}

/// The ways in which a job moves.
pub const MOVED: [&str; 5] = [
    "moved with nothing done",
    "moved straight",
    "moved with nothing kept",
    "moved by search in its own order",
    "moved by search in another order",
];

/// What became of a job that judge was asked about, with a work slice that
/// isn't of 0s.
pub fn outcome(numbers: &[u64]) -> String {
    let order = &numbers[5..5 + numbers[4] as usize];
    let searched = numbers.get(168) == Some(&0);
    match (numbers[0], searched) {
        (0, false) if order.is_empty() => "moved with nothing done".into(),
        (0, false) => "moved straight".into(),
        (0, true) if order.is_empty() => "moved with nothing kept".into(),
        (0, true) if order.is_sorted() => "moved by search in its own order".into(),
        (0, true) => "moved by search in another order".into(),
        (row, _) => format!("refused {row}"),
    }
}

#[test]
fn jobs_move_in_every_way() {
    let mut counts: BTreeMap<String, usize> = BTreeMap::new();
    for (line, operation, numbers) in operations() {
        if matches!(operation, 5 | 15) && !line.ends_with(" 0") {
            *counts.entry(outcome(numbers)).or_default() += 1;
        }
    }
    println!("{counts:?}");
    for word in MOVED {
        assert!(counts.get(word) > Some(&5), "{word}");
    }
}

/// The text that print wrote, from its answer.
fn listing(numbers: &[u64]) -> String {
    // The work slice is of one run, or of two where it is longer than 8,192.
    let runs = if numbers[3] == numbers[4] { 1 } else { 2 };
    let out = numbers[4 + 2 * runs + 1..].chunks(2);
    let bytes = out.flat_map(|run| vec![run[1] as u8; run[0] as usize]);
    String::from_utf8(bytes.take(numbers[2] as usize).collect()).unwrap()
}

#[test]
fn listings_show_every_row_to_13_and_23() {
    let mut counts: BTreeMap<String, usize> = BTreeMap::new();
    for (_, operation, numbers) in operations() {
        if operation == 9 && numbers[0] == 0 {
            let listing = listing(numbers);
            let words: Vec<&str> = listing.split(' ').take(2).collect();
            *counts.entry(words.join(" ")).or_default() += 1;
        }
    }
    println!("{counts:?}");
    for row in (1..=13).chain([23]) {
        let word = format!("(refused {row}");
        assert!(counts.contains_key(&word), "{word}");
    }
    assert!(counts["(moved (kept"] > 100);
}

/// The numbers of a script, to be taken one after the other.
pub struct Words<'a>(std::str::SplitWhitespace<'a>);

impl Words<'_> {
    pub fn next(&mut self) -> u64 {
        self.0.next().unwrap().parse().unwrap()
    }

    pub fn many(&mut self) -> Vec<u64> {
        let count = self.next();
        (0..count).map(|_| self.next()).collect()
    }

    fn step(&mut self) -> Step {
        [0; 6].map(|_: u64| self.next())
    }

    fn route(&mut self, lent: bool) -> Route {
        let (places, start) = (self.next(), self.next());
        let len = (!lent).then(|| self.next());
        let count = self.next();
        let mut steps: Vec<Step> = (0..count).map(|_| self.step()).collect();
        if let Some(len) = len {
            steps.resize(len.min(70) as usize, [0; 6]);
        }
        Route {
            places,
            start,
            steps,
        }
    }

    pub fn job(&mut self, operation: u64) -> Job {
        let lent = (12..=18).contains(&operation);
        let (old, new) = (self.route(lent), self.route(lent));
        let done = self.many();
        Job { old, new, done }
    }
}

fn refused(refusal: Refusal, length: usize) -> Vec<u64> {
    padded(&refusal, length)
}

fn bits(occurrences: impl IntoIterator<Item = u64>) -> u64 {
    let bits = occurrences.into_iter().map(|o| 1_u64 << (o - 1));
    bits.fold(0, |mask, bit| mask | bit)
}

fn expected_run(job: &Job) -> Vec<u64> {
    match job.refused_to_9() {
        Some(refusal) => refused(refusal, 3),
        None => vec![0, 0, job.run().unwrap()],
    }
}

/// The rows of those among these that each of them comes after.
fn rows(job: &Job, among: &[u64]) -> Vec<u64> {
    let row = |one: u64| {
        let others = among.iter().copied();
        bits(others.filter(|&other| among.contains(&one) && job.comes_after(one, other)))
    };
    let rows: Vec<u64> = job.occurrences().into_iter().map(row).collect();
    padded(&rows, 64)
}

fn expected_slice(job: &Job) -> Vec<u64> {
    match job.refused_to_9() {
        Some(refusal) => refused(refusal, 67),
        None => [vec![0, 0, bits(job.kept())], rows(job, &job.occurrences())].concat(),
    }
}

/// Try accepts an order exactly when it is fit.
fn expected_try(job: &Job, order: &[u64]) -> Vec<u64> {
    if let Some(refusal) = job.refused_to_9().or_else(|| job.refused_by_kept()) {
        return refused(refusal, 3);
    }
    match job.fit(order) {
        List::Fit(marking) => vec![0, 0, marking],
        List::NotFit => refused(job.refused_by_list(order).unwrap(), 3),
    }
}

/// Judge's numbers and the work slice after it; none for a search among many.
fn expected_judge(job: &Job, length: u64, byte: u64) -> Option<Vec<u64>> {
    let mut work = vec![byte; length as usize];
    let numbers = if length < 8_192 {
        refused([14, 0], 166)
    } else if let Some(refusal) = job.refused_to_9().or_else(|| job.refused_by_kept()) {
        refused(refusal, 166)
    } else if job.straight().is_some() {
        moved(job, &job.occurrences(), &job.occurrences())
    } else {
        work[..8_192].fill(0);
        let kept = job.kept();
        if kept.len() > 6 {
            return None;
        }
        match job.first_fit() {
            None => refused(job.refused_without_fit(), 166),
            Some(order) => moved(job, &kept, &order),
        }
    };
    Some([numbers, slice(&work)].concat())
}

fn moved(job: &Job, kept: &[u64], order: &[u64]) -> Vec<u64> {
    let List::Fit(marking) = job.fit(order) else {
        panic!("no fit order");
    };
    let (dropped, length) = (job.done.len() - kept.len(), order.len());
    [
        vec![0, 0, bits(kept.to_vec()), dropped as u64, length as u64],
        padded(order, 64),
        vec![marking],
        rows(job, kept),
        (0..32).map(|v| job.writer(v).unwrap_or(0)).collect(),
    ]
    .concat()
}

/// What the definitions say of the next operation; none where it isn't held to them.
fn expected(operation: u64, words: &mut Words) -> Option<Vec<u64>> {
    match operation {
        1 => {
            let tokens = words.next();
            let fired = fire(tokens, &words.step());
            Some(fired.map_or(vec![18, 0, 0], |marking| vec![0, 0, marking]))
        }
        2 | 12 => Some(expected_run(&words.job(operation))),
        3 | 13 => Some(expected_slice(&words.job(operation))),
        4 | 14 => {
            let job = words.job(operation);
            Some(expected_try(&job, &words.many()))
        }
        5 | 15 => {
            let job = words.job(operation);
            expected_judge(&job, words.next(), words.next())
        }
        _ => None,
    }
}

/// The words of a line after its operation's number.
pub fn arguments(line: &str) -> Words<'_> {
    let mut words = Words(line.split_whitespace());
    words.next();
    words
}

#[test]
fn answers_are_what_the_definitions_say() {
    let mut checked: BTreeMap<u64, usize> = BTreeMap::new();
    for (line, operation, numbers) in operations() {
        if let Some(expected) = expected(operation, &mut arguments(line)) {
            assert_eq!(numbers, expected, "of {line}");
            *checked.entry(operation).or_default() += 1;
        }
    }
    println!("checked, by operation: {checked:?}");
    let operations = [1, 2, 3, 4, 5, 12, 13, 14, 15];
    assert!(operations.iter().all(|o| checked.get(o) > Some(&100)));
}

/// The rows that write answers, by the lines alone.
#[test]
fn write_meets_the_rows_of_its_lines() {
    let mut written = 0;
    for (line, operation, numbers) in operations() {
        if !matches!(operation, 8 | 18) {
            continue;
        }
        let mut words = arguments(line);
        let job = words.job(operation);
        let (length, byte) = (words.next(), words.next());
        let unchanged = slice(&vec![byte; length as usize]);
        match job.refused_by_a_line() {
            Some(refusal) => {
                let expected = [refused(refusal, 3), unchanged].concat();
                assert_eq!(numbers, expected, "of {line}");
            }
            None if numbers[0] == 15 => {
                assert!(numbers[1] > length);
                let expected = [vec![15, numbers[1], 0], unchanged].concat();
                assert_eq!(numbers, expected, "of {line}");
            }
            None => written += 1,
        }
    }
    println!("{written} written");
    assert!(written > 100);
}

/// What write gave is a sheet that reads, and the records that read gives are
/// written as the same bytes.
#[test]
fn what_is_written_is_read_back() {
    let mut read = 0;
    for (_, operation, numbers) in operations() {
        if !matches!(operation, 8 | 18) || numbers[0] != 0 {
            continue;
        }
        let out = numbers[4..].chunks(2);
        let bytes: Vec<u64> = out.flat_map(|run| vec![run[1]; run[0] as usize]).collect();
        let bytes = &bytes[..numbers[2] as usize];
        let facts = answers(&format!("6 {}", counted(bytes)))[0].1.clone();
        assert_eq!(facts[..2], [0, 0]);
        let rewritten = answer(&rewrite(&facts, bytes.len()));
        let expected = [vec![0, 0, bytes.len() as u64], slice(bytes)].concat();
        assert_eq!(rewritten, text(&expected) + "\n");
        read += 1;
    }
    assert!(read > 100);
}

/// The script that writes what read answered.
fn rewrite(facts: &[u64], length: usize) -> String {
    let route = |numbers: &[u64]| format!("{} 64 {}", text(&numbers[..3]), text(&numbers[3..]));
    let (routes, done) = facts[2..].split_at(2 * (3 + BY_VALUE));
    let (old, new) = routes.split_at(3 + BY_VALUE);
    let (old, new) = (route(old), route(new));
    let done = counted(&done[1..=done[0] as usize]);
    format!("8 {old} {new} {done} {length} 0")
}

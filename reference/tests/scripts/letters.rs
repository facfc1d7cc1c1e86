//! 01's examples A to L, with start lines, through scripts, A with long names too: every
//! operation on the records, by value and lent, and on the sheet.

use crate::common::{answers, begun, counted, facts_a, numbers_of, padded, records, slice};
use crate::common::{Facts, Numbers, BY_VALUE};

/// A letter's sheet and listing.
macro_rules! files {
    ($letter:literal) => {
        [
            include_str!(concat!("../../../examples/letters/", $letter, ".sheet")),
            include_str!(concat!("../../../examples/letters/", $letter, ".listing")),
        ]
        .map(String::from)
    };
}

pub type Refusal = [u64; 2];

/// What judge gives, without the unused entries.
pub struct Moved {
    pub kept: u64,
    pub dropped: u64,
    pub order: Numbers,
    pub marking: u64,
    pub after: Numbers,
    pub writers: Numbers,
}

/// A job, and what each operation answers.
pub struct Letter {
    pub files: [String; 2],
    pub facts: Facts,
    /// The old route's marking.
    pub run: Result<u64, Refusal>,
    /// The kept, and the table's first rows.
    pub slice: Result<(u64, Numbers), Refusal>,
    pub judge: Result<Moved, Refusal>,
    pub searched: bool,
    /// Orders handed in, and what try answers.
    pub tries: Vec<(Numbers, [u64; 3])>,
}

/// Number, second and so many others: those that are used, and 0.
fn line<T>(answer: &Result<T, Refusal>, used: impl Fn(&T) -> Numbers, others: usize) -> Numbers {
    match answer {
        Ok(facts) => padded(&[vec![0, 0], used(facts)].concat(), 2 + others),
        Err(refusal) => padded(refusal, 2 + others),
    }
}

/// Judge's numbers: 3, 64 entries, the marking, 64 rows and 32 writers.
fn moved_numbers(moved: &Moved) -> Numbers {
    let order = &moved.order;
    [
        vec![moved.kept, moved.dropped, order.len() as u64],
        padded(order, 64),
        vec![moved.marking],
        padded(&moved.after, 64),
        padded(&moved.writers, 32),
    ]
    .concat()
}

impl Letter {
    pub fn check(&self) {
        self.check_records(0, &self.facts.by_value());
        self.check_records(10, &self.facts.lent());
        self.check_sheet();
        self.check_reading();
    }

    /// The operations on records; those on lent lists have numbers 10 higher.
    fn check_records(&self, more: u64, facts: &str) {
        answers(2 + more, facts, &line(&self.run, |run| vec![*run], 1));
        let kept_and_rows = |(kept, rows): &(u64, Numbers)| [vec![*kept], rows.clone()].concat();
        answers(3 + more, facts, &line(&self.slice, kept_and_rows, 65));
        for (order, tried) in &self.tries {
            answers(4 + more, &format!("{facts} {}", counted(order)), tried);
        }
        let judged = line(&self.judge, moved_numbers, 164);
        let work = [vec![8_193], self.work(8_193)].concat();
        answers(
            5 + more,
            &format!("{facts} 8193 9"),
            &[judged, work].concat(),
        );
        refuses_short_work(5 + more, facts);
        self.check_writing(8 + more, facts);
    }

    /// The runs of a work slice of 9s of this length afterwards.
    fn work(&self, length: u64) -> Numbers {
        match (self.searched, length) {
            (false, _) => vec![length, 9],
            (true, 8_192) => vec![8_192, 0],
            (true, _) => vec![8_192, 0, length - 8_192, 9],
        }
    }

    fn check_writing(&self, write: u64, facts: &str) {
        let sheet = numbers_of(&self.files[0]);
        let length = sheet.len() as u64;
        let out = slice(&[sheet, vec![7, 7]].concat());
        let written = [vec![0, 0, length], out].concat();
        answers(write, &format!("{facts} {} 7", length + 2), &written);
        let short = [15, length, 0, length - 1, length - 1, 7];
        answers(write, &format!("{facts} {} 7", length - 1), &short);
    }

    fn check_sheet(&self) {
        let sheet = counted(&numbers_of(&self.files[0]));
        let listing = numbers_of(&self.files[1]);
        let length = listing.len() as u64;
        let work = [vec![8_192], self.work(8_192)].concat();
        let out = slice(&[listing, vec![7]].concat());
        let printed = [vec![0, 0, length], work.clone(), out].concat();
        answers(9, &format!("{sheet} 8192 9 {} 7", length + 1), &printed);
        let unchanged = vec![length - 1, length - 1, 7];
        let short = [vec![15, length, 0], work, unchanged].concat();
        answers(9, &format!("{sheet} 8192 9 {} 7", length - 1), &short);
        let refused = [14, 0, 0, 8_191, 8_191, 9, 3, 3, 7];
        answers(9, &format!("{sheet} 8191 9 3 7"), &refused);
        for (order, tried) in &self.tries {
            answers(10, &format!("{sheet} {}", counted(order)), tried);
        }
    }

    fn check_reading(&self) {
        let sheet = counted(&numbers_of(&self.files[0]));
        let Facts { old, new, done } = &self.facts;
        let lengths = [old.list.len(), new.list.len(), done.len()].map(|n| n as u64);
        let read = [
            vec![0, 0, old.places, old.start, lengths[0]],
            padded(&old.list.concat(), BY_VALUE),
            vec![new.places, new.start, lengths[1]],
            padded(&new.list.concat(), BY_VALUE),
            vec![lengths[2]],
            padded(done, 64),
        ];
        answers(6, &sheet, &read.concat());
        let at = self.files[0].find("(job)\n").unwrap();
        answers(7, &sheet, &slice(&numbers_of(&self.files[0][at..])));
        let into = [
            vec![0, 0, old.places, old.start, lengths[0]],
            vec![new.places, new.start, lengths[1]],
            vec![lengths[2], lengths[0] + 1],
            old.list.concat(),
            vec![7, 7, 7, 7, 7, 1],
            vec![lengths[1]],
            new.list.concat(),
            slice(&[done.clone(), vec![7, 7]].concat()),
        ];
        let room = format!("{} {} {}", lengths[0] + 1, lengths[1], lengths[2] + 2);
        answers(16, &format!("{sheet} {room}"), &into.concat());
    }
}

/// Row 14 goes before all others.
fn refuses_short_work(judge: u64, facts: &str) {
    let refused = [padded(&[14, 0], 166), vec![8_191, 8_191, 9]].concat();
    answers(judge, &format!("{facts} 8191 9"), &refused);
}

/// A letter that a row to 9 refuses.
fn refused_early(files: [String; 2], facts: Facts, refusal: Refusal) -> Letter {
    let tried = [refusal[0], refusal[1], 0];
    Letter {
        files,
        facts,
        run: Err(refusal),
        slice: Err(refusal),
        judge: Err(refusal),
        searched: false,
        tries: vec![(vec![], tried), (vec![1, 2, 3], tried)],
    }
}

fn letter_a() -> Letter {
    let moved = Moved {
        kept: 7,
        dropped: 0,
        order: vec![2, 1, 3],
        marking: 8,
        after: vec![0, 0, 3],
        writers: vec![1, 2, 3],
    };
    Letter {
        files: files!("A"),
        facts: facts_a(),
        run: Ok(8),
        slice: Ok((7, vec![0, 0, 3])),
        judge: Ok(moved),
        searched: true,
        tries: vec![
            (vec![2, 1, 3], [0, 0, 8]),
            (vec![1, 2, 3], [18, 1, 0]),
            (vec![2, 3, 1], [17, 2, 0]),
            (vec![2, 1, 1], [16, 3, 0]),
            (vec![2, 1], [16, 3, 0]),
            (vec![2, 1, 3, 3], [16, 4, 0]),
            (vec![2, 1, 255], [16, 3, 0]),
            (vec![0], [16, 1, 0]),
            (vec![], [16, 1, 0]),
        ],
    }
}

#[test]
fn a() {
    letter_a().check();
}

/// Another name in the place of 10 changes its sheet and nothing else; 65,556
/// is 20 in its last 16 bits.
#[test]
fn a_with_long_names() {
    for name in [65_536, 65_556, 100_000, (1 << 32) - 2, (1 << 32) - 1] {
        let mut letter = letter_a();
        letter.facts.old.list[0][0] = name;
        letter.facts.new.list[1][0] = name;
        letter.facts.done[0] = name;
        letter.files[0] = letter.files[0].replace(" 10", &format!(" {name}"));
        letter.check();
    }
}

/// A letter with nothing done, whose new route begins on its first place.
fn nothing_done(files: [String; 2], facts: Facts) -> Letter {
    let moved = Moved {
        kept: 0,
        dropped: 0,
        order: vec![],
        marking: 1,
        after: vec![],
        writers: vec![],
    };
    Letter {
        files,
        facts,
        run: Ok(1),
        slice: Ok((0, vec![])),
        judge: Ok(moved),
        searched: false,
        tries: vec![(vec![], [0, 0, 1]), (vec![1], [16, 1, 0])],
    }
}

#[test]
fn b() {
    let mut facts = facts_a();
    facts.done = vec![];
    nothing_done(files!("B"), facts).check();
}

#[test]
fn c() {
    let mut facts = facts_a();
    facts.done = vec![10];
    Letter {
        files: files!("C"),
        facts,
        run: Ok(2),
        slice: Ok((1, vec![])),
        judge: Err([13, 11]),
        searched: true,
        tries: vec![(vec![1], [18, 1, 0]), (vec![], [16, 1, 0])],
    }
    .check();
}

#[test]
fn d() {
    let mut facts = facts_a();
    facts.old.list[1][3] = 1;
    facts.new.list[0][3] = 1;
    facts.done = vec![10, 20];
    Letter {
        files: files!("D"),
        facts,
        run: Ok(4),
        slice: Ok((3, vec![0, 1])),
        judge: Err([13, 11]),
        searched: true,
        tries: vec![(vec![1, 2], [18, 1, 0]), (vec![2, 1], [17, 1, 0])],
    }
    .check();
}

/// E and F: the new route without 10, where 30 reads these.
fn facts_without_10(reads: u64) -> Facts {
    Facts {
        new: records(3, &[[20, 1, 2, 0, 2, 0], [30, 2, 4, reads, 4, 0]]),
        done: vec![10, 20],
        ..facts_a()
    }
}

#[test]
fn e() {
    refused_early(files!("E"), facts_without_10(3), [23, 9]).check();
}

#[test]
fn f() {
    let moved = Moved {
        kept: 2,
        dropped: 1,
        order: vec![2],
        marking: 2,
        after: vec![],
        writers: vec![0, 2],
    };
    Letter {
        files: files!("F"),
        facts: facts_without_10(2),
        run: Ok(4),
        slice: Ok((2, vec![])),
        judge: Ok(moved),
        searched: true,
        tries: vec![(vec![2], [0, 0, 2]), (vec![1, 2], [16, 1, 0])],
    }
    .check();
}

#[test]
fn g() {
    let mut facts = facts_a();
    facts.new.list[1][4] = 9;
    facts.done = vec![10];
    Letter {
        files: files!("G"),
        facts,
        run: Ok(2),
        slice: Ok((1, vec![])),
        judge: Err([12, 12]),
        searched: false,
        tries: vec![(vec![1], [12, 12, 0])],
    }
    .check();
}

#[test]
fn h() {
    let mut facts = facts_a();
    facts.done[0] = 40;
    refused_early(files!("H"), facts, [8, 12]).check();
}

#[test]
fn i() {
    let mut facts = facts_a();
    facts.done[0] = 30;
    refused_early(files!("I"), facts, [9, 12]).check();
}

#[test]
fn j() {
    let route = begun(3, 3, &[[10, 1, 4, 0, 0, 0], [20, 2, 4, 0, 0, 0]]);
    let facts = Facts {
        old: route.clone(),
        new: route,
        done: vec![10, 20],
    };
    refused_early(files!("J"), facts, [9, 11]).check();
}

#[test]
fn k() {
    let route = records(2, &[[10, 1, 2, 0, 0, 0], [20, 2, 2, 0, 1, 0]]);
    let moved = Moved {
        kept: 7,
        dropped: 0,
        order: vec![1, 2, 3],
        marking: 2,
        after: vec![0, 0, 2],
        writers: vec![3],
    };
    Letter {
        files: files!("K"),
        facts: Facts {
            old: route.clone(),
            new: route,
            done: vec![10, 20, 20],
        },
        run: Ok(2),
        slice: Ok((4, vec![0, 0, 2])),
        judge: Ok(moved),
        searched: false,
        tries: vec![
            (vec![1, 2, 3], [0, 0, 2]),
            (vec![3], [18, 1, 0]),
            (vec![1, 3, 2], [16, 1, 0]),
        ],
    }
    .check();
}

#[test]
fn l() {
    let route = records(2, &[[10, 1, 3, 0, 0, 0]]);
    let facts = Facts {
        old: route.clone(),
        new: route,
        done: vec![],
    };
    nothing_done(files!("L"), facts).check();
}

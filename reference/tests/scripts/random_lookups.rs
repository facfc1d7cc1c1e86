//! Random scripts of look-ups: their answers held to a way that goes step by step.

use crate::direct::{Job, Route};
use crate::random::{arguments, draw, operations_of, Answered};
use reference::random::dice::Dice;
use reference::random::lookup::{lists, script, OPERATIONS};
use reference::random::script::MOST_BYTES;
use std::sync::OnceLock;

const SCRIPTS: u64 = 300;

pub const FIND: u64 = 24;
pub const COMPARE: u64 = 25;

/// The random scripts, drawn and answered once for all tests.
fn scripts() -> &'static [Answered] {
    static ALL: OnceLock<Vec<Answered>> = OnceLock::new();
    ALL.get_or_init(|| draw(SCRIPTS, script))
}

/// The lines of an operation, with their answers.
pub fn lines_of(number: u64) -> impl Iterator<Item = (&'static str, &'static [u64])> {
    let those = operations_of(scripts()).filter(move |(_, operation, _)| *operation == number);
    those.map(|(line, _, numbers)| (line, numbers))
}

/// Names, a beginning in them or past them, and a name to be found.
pub struct Wanted {
    pub names: Vec<u64>,
    pub from: u64,
    pub name: u64,
}

impl Wanted {
    /// What operation 24 is given.
    pub fn given(line: &str) -> Wanted {
        let mut words = arguments(line);
        Wanted {
            names: words.many(),
            from: words.next(),
            name: words.next(),
        }
    }

    /// Where it begins: past the last at the top.
    pub fn begin(&self) -> usize {
        let within = self.from < self.names.len() as u64;
        if within {
            self.from as usize
        } else {
            0
        }
    }

    /// Where the name stands, once or more often.
    pub fn places(&self) -> Vec<usize> {
        let stands = |at: &usize| self.names[*at] == self.name;
        (0..self.names.len()).filter(stands).collect()
    }

    /// Goes from one name to the next below it, and from the last to the top, until
    /// all are compared. Gives the position from 1, or 0, how many names were
    /// compared, and the next beginning.
    pub fn step_by_step(&self) -> [u64; 3] {
        let mut at = self.begin();
        for compared in 1..=self.names.len() as u64 {
            let below = at as u64 + 1;
            if self.names[at] == self.name {
                return [below, compared, below];
            }
            at = (at + 1) % self.names.len();
        }
        [0, self.names.len() as u64, self.from]
    }
}

/// How a name is found; the way step by step or another.
pub type Way = fn(&Wanted) -> [u64; 3];

/// What this way gives for each of the names in turn, the first from here.
pub fn in_turn(way: Way, names: &[u64], mut from: u64, wanted: &[u64]) -> Vec<[u64; 3]> {
    let mut all = Vec::new();
    for &name in wanted {
        let names = names.to_vec();
        let found = way(&Wanted { names, from, name });
        from = found[2];
        all.push(found);
    }
    all
}

pub fn total(found: &[[u64; 3]]) -> u64 {
    found.iter().map(|[_, compared, _]| compared).sum()
}

/// The names of the old route's steps, and of the new one's.
pub fn names_of(job: &Job) -> [Vec<u64>; 2] {
    let names = |route: &Route| route.steps.iter().map(|step| step[0]).collect();
    [names(&job.old), names(&job.new)]
}

#[test]
fn a_seed_gives_one_script() {
    let draw = |seed| script(&mut Dice::new(seed));
    assert_eq!(draw(5), draw(5));
    assert_ne!(draw(5), draw(6));
}

/// Scripts are of these two operations, so many of them, and not too long.
#[test]
fn the_length_of_a_script() {
    let (mut longest, mut whole) = (0, 0);
    for (text, answers) in scripts() {
        let numbers = text.split_whitespace().count();
        assert!(text.len() < MOST_BYTES && numbers <= 32_768);
        assert!(answers.len() <= OPERATIONS);
        assert!(answers.iter().all(|(o, _)| matches!(*o, FIND | COMPARE)));
        longest = longest.max(text.len());
        let lines: Vec<&str> = text.lines().collect();
        let short = |line: &&str| line.len() < lists::LONGEST || line.starts_with("25 ");
        assert!(lines.len() != OPERATIONS || lines.iter().all(short));
        whole += usize::from(answers.len() == OPERATIONS);
    }
    let counts = [FIND, COMPARE].map(|number| lines_of(number).count());
    println!("{whole} scripts with {OPERATIONS} answers; longest: {longest} bytes; {counts:?}");
    assert!(whole >= 270 && whole < scripts().len());
    assert!(counts.iter().all(|count| *count > 3_000));
}

#[test]
fn a_name_among_others() {
    for (line, numbers) in lines_of(FIND) {
        let wanted = Wanted::given(line);
        let expected = wanted.step_by_step();
        assert_eq!(numbers, expected, "of {line}");
        let place = wanted.places().first().map_or(0, |at| at + 1);
        let unique = wanted.places().len() < 2;
        assert!(!unique || numbers[0] == place as u64, "of {line}");
    }
}

#[test]
fn the_names_compared_for_a_job() {
    for (line, numbers) in lines_of(COMPARE) {
        let job = arguments(line).job(COMPARE);
        let expected = match job.refused_to_9() {
            Some([number, second]) => [number, second, 0, 0],
            None => {
                let find = |names: Vec<u64>| in_turn(Wanted::step_by_step, &names, 0, &job.done);
                let [run, matched] = names_of(&job).map(|names| total(&find(names)));
                [0, 0, run, matched]
            }
        };
        assert_eq!(numbers, expected, "of {line}");
    }
}

//! Wrong ways to find a name, and how often random scripts tell them from the right
//! one: by the answer for a name among others, and by a job's totals.

use crate::kinds::Kinds;
use crate::random::arguments;
use crate::random_lookups::{in_turn, lines_of, names_of, total};
use crate::random_lookups::{Wanted, Way, COMPARE, FIND};

/// Each wrong way must be told so many times.
const LEAST: usize = 10;

/// Ways that are wrong where there is such a name: both operations tell them.
const WRONG: [(&str, Way); 8] = [
    ("begins at the step found last", at_the_step_found),
    ("doesn't go round", not_round),
    ("always from the top", |wanted| from(wanted, 0)),
    ("past the last at the last", past_at_the_last),
    ("goes up", upwards),
    ("counts one less", one_less),
    ("compares 8 bits", |wanted| of_bits(wanted, 8)),
    ("compares 16 bits", |wanted| of_bits(wanted, 16)),
];

/// Ways that are wrong where there is none, which no run meets.
const WRONG_MISSES: [(&str, Way); 5] = [
    ("a miss counts none", |w| missed(w, 0, w.from)),
    ("a miss counts one more", |w| {
        missed(w, count(w) + 1, w.from)
    }),
    ("a miss resets", |w| missed(w, count(w), 0)),
    ("a miss moves on", |w| {
        missed(w, count(w), w.from.wrapping_add(1))
    }),
    ("a miss moves past the last", |w| {
        missed(w, count(w), count(w))
    }),
];

/// Ways that only names among others tell.
const WRONG_AMONG_OTHERS: [(&str, Way); 7] = [
    ("past the last by the remainder", |w| {
        from(w, w.from % count(w).max(1))
    }),
    ("begins by 8 bits", |w| from(w, w.from % (1 << 8))),
    ("begins by 16 bits", |w| from(w, w.from % (1 << 16))),
    ("begins by 32 bits", |w| from(w, w.from % (1 << 32))),
    ("a miss past the last resets", |w| {
        missed(w, count(w), w.begin() as u64)
    }),
    ("compares 64 names", only_64),
    ("of two the one at the top", topmost),
];

fn count(wanted: &Wanted) -> u64 {
    wanted.names.len() as u64
}

/// The right way from another beginning; a miss leaves the one given.
fn from(wanted: &Wanted, from: u64) -> [u64; 3] {
    let (names, name) = (wanted.names.clone(), wanted.name);
    let found = Wanted { names, from, name }.step_by_step();
    match found {
        [0, compared, _] => [0, compared, wanted.from],
        found => found,
    }
}

fn at_the_step_found(wanted: &Wanted) -> [u64; 3] {
    let [position, compared, next] = wanted.step_by_step();
    [position, compared, next - u64::from(position > 0)]
}

fn not_round(wanted: &Wanted) -> [u64; 3] {
    let below = (wanted.names.len() - wanted.begin()) as u64;
    match wanted.step_by_step() {
        [position, compared, next] if position > 0 && compared <= below => {
            [position, compared, next]
        }
        _ => [0, below, wanted.from],
    }
}

fn past_at_the_last(wanted: &Wanted) -> [u64; 3] {
    let last = wanted.names.len().max(1) as u64 - 1;
    from(wanted, wanted.from.min(last))
}

/// From the beginning to the top, then from the last.
fn upwards(wanted: &Wanted) -> [u64; 3] {
    let count = wanted.names.len();
    for compared in 1..=count {
        let at = (wanted.begin() + count + 1 - compared) % count;
        if wanted.names[at] == wanted.name {
            return [at as u64 + 1, compared as u64, at as u64 + 1];
        }
    }
    [0, count as u64, wanted.from]
}

fn one_less(wanted: &Wanted) -> [u64; 3] {
    let [position, compared, next] = wanted.step_by_step();
    [position, compared - u64::from(position > 0), next]
}

/// The right way, but a miss gives these.
fn missed(wanted: &Wanted, compared: u64, next: u64) -> [u64; 3] {
    match wanted.step_by_step() {
        [0, ..] => [0, compared, next],
        found => found,
    }
}

fn of_bits(wanted: &Wanted, bits: u32) -> [u64; 3] {
    let names = wanted.names.iter().map(|name| name % (1 << bits));
    let short = Wanted {
        names: names.collect(),
        from: wanted.from,
        name: wanted.name % (1 << bits),
    };
    short.step_by_step()
}

fn only_64(wanted: &Wanted) -> [u64; 3] {
    let names = wanted.names.iter().take(64).copied();
    let first = Wanted {
        names: names.collect(),
        ..*wanted
    };
    first.step_by_step()
}

/// The name counts at the top alone; below it stand others, which nobody wants.
fn topmost(wanted: &Wanted) -> [u64; 3] {
    let mut names = wanted.names.clone();
    for at in wanted.places().into_iter().skip(1) {
        names[at] = wanted.name ^ 1;
    }
    Wanted { names, ..*wanted }.step_by_step()
}

#[test]
fn names_among_others_tell_wrong_ways() {
    let mut kinds = Kinds::default();
    for (line, numbers) in lines_of(FIND) {
        let wanted = Wanted::given(line);
        let all = [&WRONG[..], &WRONG_MISSES, &WRONG_AMONG_OTHERS].concat();
        for (kind, way) in all {
            kinds.add(way(&wanted) != numbers, kind);
        }
    }
    kinds.finish(LEAST);
}

#[test]
fn jobs_tell_wrong_ways() {
    let mut kinds = Kinds::default();
    for (line, numbers) in lines_of(COMPARE).filter(|(_, numbers)| numbers[0] == 0) {
        let job = arguments(line).job(COMPARE);
        let [old, new] = names_of(&job);
        let on = |names: &[u64], way| total(&in_turn(way, names, 0, &job.done));
        for (kind, way) in WRONG {
            kinds.add(on(&old, way) != numbers[2], &format!("run: {kind}"));
        }
        for (kind, way) in WRONG.iter().chain(&WRONG_MISSES) {
            kinds.add(on(&new, *way) != numbers[3], &format!("match: {kind}"));
        }
        kinds.add(numbers[2] != numbers[3], "run for match");
        let right = |names: &[u64], from| in_turn(Wanted::step_by_step, names, from, &job.done);
        let end = right(&old, 0).last().map_or(0, |one| one[2]);
        let begun_there = total(&right(&new, end));
        kinds.add(begun_there != numbers[3], "match begins where the run ends");
        let matched = right(&new, 0);
        let miss = matched.iter().position(|one| one[0] == 0);
        let to_a_miss = miss.map_or(numbers[3], |at| total(&matched[..=at]));
        kinds.add(to_a_miss != numbers[3], "match ends at a miss");
    }
    kinds.finish(LEAST);
}

//! What random scripts of look-ups meet: lists, beginnings, names and jobs.

use crate::kinds::Kinds;
use crate::random::arguments;
use crate::random_lookups::{in_turn, lines_of, names_of, total, Wanted, COMPARE, FIND};
use std::collections::BTreeSet;

/// Each kind must be met so many times.
const LEAST: usize = 10;

fn length(wanted: &Wanted) -> &'static str {
    match wanted.names.len() {
        0 => "no name",
        1 => "one name",
        2..=9 => "2 to 9 names",
        10..=63 => "10 to 63 names",
        64 => "64 names",
        65..=99 => "65 to 99 names",
        _ => "100 names",
    }
}

/// Where it begins; where two of these fall together, the first.
fn beginning(wanted: &Wanted) -> &'static str {
    let count = wanted.names.len() as u64;
    match wanted.from {
        0 => "from the top",
        u64::MAX => "from 2^64 - 1",
        from if from == count => "from just past the last",
        from if from + 1 == count => "from the last",
        from if from < count => "from the middle",
        from if from <= 2 * count => "from past the last by less than all",
        _ => "from far past the last",
    }
}

/// Where the name stands that it finds; where two of these fall together, the first.
fn standing(wanted: &Wanted) -> &'static str {
    let (begin, last) = (wanted.begin(), wanted.names.len().max(1) - 1);
    let [position, compared, _] = wanted.step_by_step();
    match position.checked_sub(1).map(|at| at as usize) {
        None => "nowhere",
        Some(at) if at == begin => "where it begins",
        Some(at) if at + 1 == begin => "just above",
        Some(at) if at == begin + 1 => "next below",
        Some(0) => "at the top",
        Some(at) if at == last && compared == last as u64 + 1 => "at the last, after all",
        Some(at) if at == last => "at the last",
        Some(at) if at < begin => "above",
        _ => "below",
    }
}

/// Where a name stands that stands twice or more often.
fn twice(wanted: &Wanted) -> Option<&'static str> {
    let places = wanted.places();
    let above = places.iter().filter(|at| **at < wanted.begin()).count();
    match [above, places.len() - above] {
        [0, 0] | [0, 1] | [1, 0] => None,
        [0, _] => Some("twice, from the beginning on"),
        [_, 0] => Some("twice, above"),
        _ => Some("twice, on both sides of the beginning"),
    }
}

/// Whether the way to the name, or the whole list if there is none, meets another
/// that ends with the same bits.
fn meets_one_alike(wanted: &Wanted, bits: u32) -> bool {
    let [_, compared, _] = wanted.step_by_step();
    let (names, name) = (&wanted.names, wanted.name);
    let round = names[wanted.begin()..].iter().chain(names);
    let mut met = round.take(compared as usize);
    met.any(|one| *one != name && one % (1 << bits) == name % (1 << bits))
}

#[test]
fn kinds_of_names_among_others() {
    let mut kinds = Kinds::default();
    for (line, numbers) in lines_of(FIND) {
        let wanted = Wanted::given(line);
        let found = if numbers[0] == 0 { "none" } else { "found" };
        kinds.add(true, &format!("{}, {found}", length(&wanted)));
        kinds.add(true, &format!("{}, {found}", beginning(&wanted)));
        let many = wanted.names.len() > 3;
        kinds.add(many, &format!("stands {}", standing(&wanted)));
        if let Some(kind) = twice(&wanted) {
            kinds.add(true, kind);
        }
        for bits in [8, 16] {
            let kind = format!("meets one alike in {bits} bits, {found}");
            kinds.add(meets_one_alike(&wanted, bits), &kind);
        }
        for name in [0, 4_294_967_295] {
            kinds.add(wanted.name == name, &format!("{name}, {found}"));
        }
    }
    kinds.finish(LEAST);
    // Lengths, without a name found among none; beginnings; standings; names twice;
    // names alike; 0 and the greatest.
    assert_eq!(kinds.0.len(), 13 + 14 + 9 + 3 + 4 + 4);
}

/// Whether the old or the new route by value has records past its `len`.
fn past_len(line: &str) -> bool {
    let mut words = arguments(line);
    let mut past = false;
    for _ in 0..2 {
        let [_, _, len, count] = [words.next(), words.next(), words.next(), words.next()];
        past |= count > len;
        for _ in 0..6 * count {
            words.next();
        }
    }
    past
}

/// Whether the names that both have are in another order in the second.
fn other_order(old: &[u64], new: &[u64]) -> bool {
    let common = |one: &[u64], other: &[u64]| -> Vec<u64> {
        let those = one.iter().filter(|name| other.contains(name));
        those.copied().collect()
    };
    common(old, new) != common(new, old)
}

/// How a list of findings goes in so many names.
fn add_findings(kinds: &mut Kinds, of: &str, found: &[[u64; 3]], count: usize) {
    let mut add = |met: bool, kind: &str| kinds.add(met, &format!("{of}: {kind}"));
    let count = count as u64;
    let many = found.len() > 2 && count > 2;
    let all = |cost: u64| many && found[1..].iter().all(|one| one[1] == cost);
    let any = |cost: u64| many && found[1..].iter().any(|one| one[0] > 0 && one[1] == cost);
    add(all(1) && found[0][1] == 1, "costs one each");
    add(all(1) && found[0][1] > 1, "follows, from elsewhere");
    add(all(count - 1), "falls, each the one above");
    add(any(1), "found at once");
    add(any(count - 1), "found after all but one");
    add(any(count), "found after all");
    let round = |two: &[[u64; 3]]| two[0][0] == count && two[1][..2] == [1, 1];
    add(
        many && found.windows(2).any(round),
        "on from the last to the top",
    );
    add(total(found) > 255, "over 255");
    add(total(found) > 1_000, "over 1,000");
}

/// What becomes of the names that the new route lacks.
fn add_misses(kinds: &mut Kinds, found: &[[u64; 3]], count: usize) {
    let missed = found.iter().filter(|one| one[0] == 0).count();
    kinds.add(missed == 0 && !found.is_empty(), "match: none is a miss");
    kinds.add((1..found.len()).contains(&missed), "match: some are misses");
    kinds.add(missed == found.len() && missed > 0, "match: all are misses");
    let then_found = |two: &[[u64; 3]]| two[0][0] == 0 && two[1][0] > 0;
    let mut pairs = found.windows(2).filter(|two| then_found(two));
    // A miss hands on where it began, which isn't the top here.
    let within = |two: &[[u64; 3]]| (1..count as u64).contains(&two[0][2]);
    kinds.add(pairs.clone().count() > 0, "match: found after a miss");
    kinds.add(pairs.any(within), "match: found after a miss in the middle");
}

#[test]
fn kinds_of_jobs() {
    let mut kinds = Kinds::default();
    for (line, numbers) in lines_of(COMPARE) {
        kinds.add(true, &format!("row {}", numbers[0]));
        if numbers[0] > 0 {
            continue;
        }
        let job = arguments(line).job(COMPARE);
        let [old, new] = names_of(&job);
        let run = in_turn(Wanted::step_by_step, &old, 0, &job.done);
        let matched = in_turn(Wanted::step_by_step, &new, 0, &job.done);
        add_findings(&mut kinds, "run", &run, old.len());
        add_findings(&mut kinds, "match", &matched, new.len());
        add_misses(&mut kinds, &matched, new.len());
        let different: BTreeSet<&u64> = job.done.iter().collect();
        kinds.add(job.done.is_empty(), "nothing done");
        kinds.add(job.done.len() == 64, "64 done");
        kinds.add(different.len() < job.done.len(), "a name done twice");
        kinds.add(old.len() == 1, "one old step");
        kinds.add(old.len() == 64, "64 old steps");
        kinds.add(new.len() == 1, "one new step");
        kinds.add(new.len() == 64, "64 new steps");
        kinds.add(other_order(&old, &new), "other order in the new route");
        kinds.add(past_len(line), "records past len");
        kinds.add(numbers[3] < numbers[2], "match costs less");
        kinds.add(numbers[3] > numbers[2], "match costs more");
        kinds.add(numbers[3] == numbers[2], "match costs the same");
    }
    kinds.finish(LEAST);
    // Rows; findings of run and match; misses; the others.
    assert_eq!(kinds.0.len(), 10 + 2 * 9 + 5 + 12);
}

//! What random scripts meet of starts (02, A.5): on records, by value and lent, on
//! sheets, on shelves and in look-ups.

use crate::direct::{Job, Route};
use crate::kinds::Kinds;
use crate::kinds_of_starts::add;
use crate::random::{arguments, operations};
use crate::random_cloth::{bytes, facts};
use crate::random_lookups::{lines_of, COMPARE};
use crate::random_shelves::puts;
use reference::sheet::read;

/// Each kind must be met so many times.
const LEAST: usize = 5;

/// The jobs of run, slice, try and judge, with the answers of their operations.
fn jobs(lent: bool) -> impl Iterator<Item = (Job, &'static [u64])> {
    let those = operations().filter(move |(_, operation, _)| {
        matches!(operation, 2..=5 | 12..=15) && (*operation > 10) == lent
    });
    those.map(|(line, operation, numbers)| (arguments(line).job(operation), numbers))
}

#[test]
fn jobs_meet_starts() {
    for lent in [false, true] {
        let mut kinds = Kinds::default();
        for (job, _) in jobs(lent) {
            add(&mut kinds, &facts(&job));
        }
        println!("lent: {lent}");
        kinds.finish(LEAST);
    }
}

/// The sheets of print and of the C form of try.
#[test]
fn sheets_meet_starts() {
    let mut kinds = Kinds::default();
    for (line, operation, _) in operations() {
        if matches!(operation, 9 | 10) {
            if let Ok(facts) = read(&bytes(arguments(line).many())) {
                add(&mut kinds, &facts);
            }
        }
    }
    kinds.finish(LEAST);
}

/// What a start mask is beside its place count, where the count is in range.
fn add_mask(kinds: &mut Kinds, word: &str, route: &Route, refused: bool) {
    let Route { places, start, .. } = *route;
    if !(1..=64).contains(&places) {
        return;
    }
    let bit = |place: u64| place < 64 && start >> place & 1 == 1;
    let below = u64::MAX >> (64 - places);
    let mut add = |met, kind: &str| kinds.add(met, &format!("{word} start, {kind}"));
    let past = start & !below;
    add(refused && bit(places), "row 2: bit N");
    add(
        refused && past == 1 << (places % 64) && places < 64,
        "row 2: bit N alone too many",
    );
    add(refused && bit(63) && places < 64, "row 2: bit 63");
    add(refused && start == u64::MAX, "row 2: all bits");
    add(refused && start & below == 0, "row 2: none below N");
    add(!refused && start == below && places < 64, "all places");
    add(!refused && start == u64::MAX, "all 64 places");
    add(!refused && start == 0, "no places");
    add(!refused && bit(63), "the last of 64 places");
}

/// Bits at and above N, by the row that the start's line meets.
#[test]
fn records_have_any_masks() {
    for lent in [false, true] {
        let mut kinds = Kinds::default();
        for (job, numbers) in jobs(lent) {
            let new_line = job.old.steps.len() as u64 + 3;
            let routes = [("old", &job.old, 2), ("new", &job.new, new_line + 1)];
            for (word, route, line) in routes {
                add_mask(&mut kinds, word, route, numbers[..2] == [2, line]);
                let seven = numbers[..2] == [7, line];
                kinds.add(seven, &format!("{word} start, 7"));
                // A step's row too, which comes later.
                let refused = numbers[..2] == [2, line];
                let mut mended = job.clone();
                let mended_route = if line == 2 {
                    &mut mended.old
                } else {
                    &mut mended.new
                };
                mended_route.start = 1;
                let later = mended.refused_by_a_line().filter(|_| refused);
                let met = later.is_some_and(|[_, at]| at > line);
                kinds.add(met, &format!("{word} start, row 2 and a later line's"));
            }
        }
        println!("lent: {lent}");
        kinds.finish(LEAST);
        assert_eq!(kinds.0.len(), 2 * (9 + 2));
    }
}

/// Editions that are put: their starts, by the answer.
#[test]
fn editions_have_any_starts() {
    let mut kinds = Kinds::default();
    for (route, numbers) in puts() {
        let row = numbers[0];
        let round = all_outs(&route) & route.start == route.start && route.start != 0;
        kinds.add(row == 0 && round, "taken: a start where 01 has none");
        kinds.add(
            row == 0 && route.start.count_ones() > 8,
            "taken: over 8 places",
        );
        kinds.add(row == 7 && numbers[1] == 2, "7 at line 2");
        kinds.add(row == 2 && numbers[1] == 2, "2 at line 2");
        kinds.add(row == 6 && route.start == 0, "6 before an empty start");
        kinds.add(row == 4 && numbers[1] == 3, "4 at line 3");
    }
    kinds.finish(LEAST);
    assert_eq!(kinds.0.len(), 6);
}

fn all_outs(route: &Route) -> u64 {
    route.steps.iter().fold(0, |mask, step| mask | step[2])
}

/// The jobs of look-ups.
#[test]
fn lookups_meet_starts() {
    let mut kinds = Kinds::default();
    for (line, numbers) in lines_of(COMPARE) {
        let job = arguments(line).job(COMPARE);
        let old = &job.old;
        let moved_on = old.start & all_outs(old) != 0;
        kinds.add(numbers[0] == 0 && moved_on, "where 01 wouldn't begin");
        kinds.add(numbers[0] == 7, "7");
        kinds.add(numbers[..2] == [2, 2], "2 at the old start line");
    }
    kinds.finish(LEAST);
}

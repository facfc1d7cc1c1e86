//! What random jobs meet of readings (02, A.7).

use crate::kinds::Kinds;
use reference::judge::{judge, WORK};
use reference::lines;
use reference::refusal::Refusal;
use reference::sheet::{Route, Sheet, Step};
use reference::version::Version;

/// How many kinds there are: covers and first steps in both routes, one of the rows 6, 7
/// and 23 before another, and 23 of both routes before the rows that follow.
pub const KINDS: usize = 2 * (6 + 16) + 9 + 2 * 5;

/// A route of a job: its word, its head's line, the other one, and the done list.
struct Side<'a> {
    word: &'a str,
    head: usize,
    route: &'a Route,
    other: &'a Route,
    done: &'a [u64],
}

fn bits(list: &[u64]) -> u32 {
    list.iter().fold(0, |mask, variable| mask | 1 << variable)
}

/// All that these steps write.
fn writes<'a>(steps: impl IntoIterator<Item = &'a Step>) -> u32 {
    let steps = steps.into_iter();
    steps.fold(0, |mask, step| mask | bits(&step.writes))
}

/// For each step what it reads and no step of the route writes.
fn unwritten(route: &Route) -> Vec<u32> {
    let written = writes(&route.steps);
    let reads = route.steps.iter().map(|step| bits(&step.reads));
    reads.map(|reads| reads & !written).collect()
}

impl Side<'_> {
    fn both(facts: &Sheet) -> [Side<'_>; 2] {
        let side = |word, head, [route, other]: [_; 2]| Side {
            word,
            head,
            route,
            other,
            done: &facts.done,
        };
        let Sheet { old, new, .. } = facts;
        let line = facts.new_line();
        [side("old", 1, [old, new]), side("new", line, [new, old])]
    }

    /// Which step of the route is told, if there is one.
    fn first(&self) -> Option<usize> {
        unwritten(self.route).iter().position(|mask| *mask != 0)
    }

    /// The row and the line of each of the rows 6, 7 and 23 that could be told.
    fn rows(&self) -> [Option<[usize; 2]>; 3] {
        let in_step = |place: u64| {
            let mut steps = self.route.steps.iter();
            steps.any(|step| step.ins.contains(&place) || step.outs.contains(&place))
        };
        let all = (0..self.route.places).all(in_step);
        let line = |at| [23, self.head + 2 + at];
        [
            (!all).then_some([6, self.head]),
            self.route.start.is_empty().then_some([7, self.head + 1]),
            self.first().map(line),
        ]
    }
}

/// Counts the kinds of a job that no row to 5 refuses.
pub fn add(kinds: &mut Kinds, facts: &Sheet) {
    if lines::check(facts, &Version::PRESENT).is_err() {
        return;
    }
    let sides = Side::both(facts);
    let rows: Vec<[usize; 2]> = sides.iter().flat_map(Side::rows).flatten().collect();
    for side in &sides {
        add_whole(kinds, side, rows.is_empty());
        let told = side.rows()[2].is_some() && rows.first() == side.rows()[2].as_ref();
        add_first(kinds, side, told);
    }
    add_order(kinds, facts, &rows);
    let told = judge(facts, &mut [0; WORK]).err();
    let first = rows.first().map(|&[row, line]| (row as u32, line));
    let early = told.filter(|r| matches!(r.number, 6 | 7 | 23));
    assert_eq!(early.map(|r| (r.number, r.second)), first);
}

/// Readings that one write alone keeps from being refused.
fn add_whole(kinds: &mut Kinds, side: &Side, whole: bool) {
    let steps = &side.route.steps;
    let mut add = |kind: &str, covers: &dyn Fn(usize) -> u32| {
        let alone = |at: usize| {
            let rest = bits(&steps[at].reads) & covers(at);
            rest != 0
        };
        let met = whole && (0..steps.len()).any(alone);
        kinds.add(met, &format!("{}, no 23: only {kind}", side.word));
    };
    // What is written, but by none of those that don't count here.
    let all = writes(steps);
    add("its own step writes it", &|at| {
        all & !writes(steps.iter().filter(|step| step.name != steps[at].name))
    });
    add("later steps write it", &|at| all & !writes(&steps[..=at]));
    add("earlier steps write it", &|at| all & !writes(&steps[at..]));
    add("steps that aren't done write it", &|_| {
        all & !writes(steps.iter().filter(|step| side.done.contains(&step.name)))
    });
    add("steps that the other route lacks write it", &|_| {
        let known = |step: &&Step| side.other.step(step.name).is_some();
        all & !writes(steps.iter().filter(known))
    });
    add("steps of this route write it", &|_| {
        all & !writes(&side.other.steps)
    });
}

/// The first step that reads what nobody writes, where it is told.
fn add_first(kinds: &mut Kinds, side: &Side, told: bool) {
    let masks = unwritten(side.route);
    let at = side.first().unwrap_or(0);
    let Step { name, reads, .. } = &side.route.steps[at];
    let (mask, reads) = (masks[at], bits(reads));
    let mut add = |met, kind: &str| {
        kinds.add(told && met, &format!("23 of {}: {kind}", side.word));
    };
    let rest = masks[at + 1..].iter().filter(|mask| **mask != 0).count();
    let last = at + 1 == masks.len();
    add(rest == 0, "one step");
    add(rest > 0, "the first of some steps");
    add(at == 0, "the first line");
    add(at > 0 && !last, "a line in the middle");
    add(at > 0 && last, "the last line");
    let by_other = writes(&side.other.steps);
    add(mask & !by_other == 0, "what the other route writes");
    add(mask & by_other == 0, "what no route writes");
    add(mask.count_ones() > 1, "two variables or more");
    add(reads != mask, "beside a variable that is written");
    add(
        reads.trailing_zeros() < mask.trailing_zeros(),
        "not the lowest",
    );
    add(
        reads.leading_zeros() < mask.leading_zeros(),
        "not the highest",
    );
    add(mask & 1 != 0, "variable 0");
    add(mask >> 31 != 0, "variable 31");
    add(side.done.contains(name), "a done step");
    add(!side.done.contains(name), "a step that isn't done");
    add(side.route.steps[at].cloth, "a marked step");
}

/// Which row is told where 23 and another could be.
fn add_order(kinds: &mut Kinds, facts: &Sheet, rows: &[[usize; 2]]) {
    let new = facts.new_line();
    let word = |[row, line]: [usize; 2]| {
        let route = if line < new { "old" } else { "new" };
        format!("{row} of {route}")
    };
    for later in rows.iter().skip(1) {
        let pair = [word(rows[0]), word(*later)];
        if pair.iter().any(|word| word.starts_with("23")) {
            kinds.add(true, &pair.join(" before "));
        }
    }
    if let [first @ [23, _]] = rows {
        let next = judge(&without_readings(facts), &mut [0; WORK]).err();
        let row = match next.map(|Refusal { number, .. }| number) {
            None => "moved".to_string(),
            Some(10..=12) => "10 to 12".to_string(),
            Some(row) => row.to_string(),
        };
        kinds.add(true, &format!("{} before {row}", word(*first)));
    }
}

/// The job with what nobody writes read no more.
fn without_readings(facts: &Sheet) -> Sheet {
    let mut facts = facts.clone();
    for route in [&mut facts.old, &mut facts.new] {
        let written = writes(&route.steps);
        for step in &mut route.steps {
            step.reads.retain(|variable| written >> variable & 1 == 1);
        }
    }
    facts
}

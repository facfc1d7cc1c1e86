//! Readings that nobody writes: one of these operations tells each edit of row 23, or of
//! what is looked for before it, from the right program.

use crate::chosen::{begun, job, judge, on_records, print, step, LENT};
use reference::judge::WORK;
use reference::random::records::Records;
use reference::script::writing::{convert, fill, hand_in, judge_editions, put};
use reference::sheet::{text, text_by, Route, Sheet, Step};
use reference::shelf::{Edition, Shelf};
use reference::version::Version;

const RUN: u64 = 2;
const UP: u64 = 26;
const DOWN: u64 = 27;

/// A step's name, what it reads and what it writes.
type Work = (u64, &'static [u64], &'static [u64]);

/// Every operation of this file, as one script.
pub fn script() -> String {
    [either_route(), both_routes(), done_lines(), shelves()].concat()
}

/// Steps one after another.
fn chain(steps: &[Work]) -> Route {
    let one = |(at, &(name, reads, writes)): (u64, &Work)| {
        step(name, [&[at], &[at + 1]], [reads, writes])
    };
    let steps: Vec<Step> = (0..).zip(steps).map(one).collect();
    begun(steps.len() as u64 + 1, &[0], &steps)
}

/// What is read is written above, by the same step, below, or by two; by the first of
/// three.
fn written() -> [Route; 5] {
    [
        chain(&[(10, &[], &[0]), (20, &[0], &[1])]),
        chain(&[(10, &[], &[1]), (20, &[0], &[0])]),
        chain(&[(10, &[0], &[]), (20, &[], &[0])]),
        chain(&[(10, &[0], &[0]), (20, &[0], &[0])]),
        chain(&[(10, &[], &[0]), (20, &[0], &[1]), (30, &[], &[2])]),
    ]
}

/// A variable that no step writes is read by the first, by the second beside one that is
/// written, or by both.
fn unwritten() -> [Route; 3] {
    [
        chain(&[(10, &[1], &[0]), (20, &[0], &[2])]),
        chain(&[(10, &[], &[0]), (20, &[0, 31], &[])]),
        chain(&[(10, &[3], &[0]), (20, &[1], &[0])]),
    ]
}

/// Also a place that no step has.
fn unused(route: &Route) -> Route {
    begun(route.places + 1, &route.start, &route.steps)
}

/// Also no start place.
fn unbegun(route: &Route) -> Route {
    begun(route.places, &[], &route.steps)
}

/// By value and lent.
fn as_records(job: &Sheet) -> String {
    let run = on_records(RUN, job, &[]) + &on_records(RUN + LENT, job, &[]);
    judge(job) + &run
}

/// Printed, and between editions.
fn as_sheet(job: &Sheet) -> String {
    let [lower, upper] = [text_by(job, &Version::OF_01), text(job)];
    let up = convert(UP, lower.as_bytes(), fill(300, 9));
    print(job, 100) + &up + &convert(DOWN, upper.as_bytes(), fill(300, 9))
}

/// Each route as the old one and as the new, beside one that is whole.
fn either_route() -> String {
    let [plain, ..] = written();
    let pair = |other: &Route| [job(other, &plain, &[10]), job(&plain, other, &[10])];
    let [first, second, _] = unwritten();
    let also = [
        unused(&first),
        unbegun(&first),
        unused(&second),
        unbegun(&second),
    ];
    let all = written().into_iter().chain(unwritten()).chain(also);
    let records = all.flat_map(|route| pair(&route).map(|job| as_records(&job)));
    let sheets = [first, second].map(|route| pair(&route).map(|job| as_sheet(&job)).concat());
    records.collect::<String>() + &sheets.concat()
}

/// A row in each route: 23 of the old one before 6, 7 and 23 of the new. And a variable
/// that the other route alone writes.
fn both_routes() -> String {
    let [first, second, _] = unwritten();
    let [plain, own, ..] = written();
    let jobs = [
        job(&first, &unused(&plain), &[]),
        job(&first, &unbegun(&plain), &[]),
        job(&second, &first, &[]),
        job(&unused(&plain), &first, &[]),
        job(&unbegun(&plain), &first, &[]),
        job(&chain(&[(10, &[1], &[0]), (20, &[], &[])]), &own, &[]),
        job(&own, &chain(&[(10, &[1], &[0]), (20, &[], &[])]), &[]),
        job(
            &chain(&[(10, &[0], &[0])]),
            &chain(&[(10, &[1], &[1])]),
            &[],
        ),
    ];
    jobs.iter().map(judge).collect()
}

/// A done name that the old route lacks, and one too early, beside 23 of either route.
fn done_lines() -> String {
    let [first, second, _] = unwritten();
    let [plain, ..] = written();
    let of = |done: u64| {
        let jobs = [job(&plain, &first, &[done]), job(&second, &plain, &[done])];
        jobs.iter().map(judge).collect::<String>()
    };
    of(40) + &of(20)
}

/// Each route put on the empty shelf; jobs judged from a shelf that was handed in with a
/// route that is at fault.
fn shelves() -> String {
    let by_value = |route: &Route| Records::of(route).by_value();
    let [first, second, both] = unwritten();
    let also = [unused(&first), unbegun(&second)];
    let all = written()
        .into_iter()
        .chain([first.clone(), second.clone(), both])
        .chain(also);
    let put = |route: Route| hand_in(&Shelf::empty()) + &put(1, &by_value(&route));
    let puts: String = all.map(put).collect();
    let [plain, ..] = written();
    let mut shelf = Shelf::empty();
    shelf.len = 3;
    for (at, route) in [first, plain, second].iter().enumerate() {
        let number = at as u32 + 1;
        shelf.editions[at] = Edition {
            number,
            route: by_value(route),
        };
    }
    let pairs = [[1, 2], [2, 3], [1, 3]];
    let judged = pairs.map(|pair| judge_editions(pair, &[10], fill(WORK, 7)));
    puts + &hand_in(&shelf) + &judged.concat()
}

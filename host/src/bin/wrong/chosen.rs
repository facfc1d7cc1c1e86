//! Operations that random scripts seldom hold: each tells at least one wrong
//! program from the right one.

use reference::judge::WORK;
use reference::random::records::Facts;
use reference::script::writing::{self, bytes, fill, operation, read_by_01};
use reference::sheet::{self, Route, Sheet, Step};

pub const SLICE: u64 = 3;
pub const TRY: u64 = 4;
pub const JUDGE: u64 = 5;
pub const WRITE: u64 = 8;
const PRINT: u64 = 9;
pub const READ_INTO: u64 = 16;
pub const LENT: u64 = 10;

/// A step between two sets of places, without a mark.
pub fn step(name: u64, places: [&[u64]; 2], variables: [&[u64]; 2]) -> Step {
    let [ins, outs] = places.map(<[u64]>::to_vec);
    let [reads, writes] = variables.map(<[u64]>::to_vec);
    Step {
        name,
        ins,
        outs,
        reads,
        writes,
        cloth: false,
    }
}

/// The step with the mark.
pub fn cloth(step: Step) -> Step {
    Step {
        cloth: true,
        ..step
    }
}

/// A route that begins on its first place.
pub fn route(places: u64, steps: &[Step]) -> Route {
    begun(places, &[0], steps)
}

/// A route that begins on these places.
pub fn begun(places: u64, start: &[u64], steps: &[Step]) -> Route {
    Route {
        places,
        start: start.to_vec(),
        steps: steps.to_vec(),
    }
}

pub fn job(old: &Route, new: &Route, done: &[u64]) -> Sheet {
    Sheet {
        old: old.clone(),
        new: new.clone(),
        done: done.to_vec(),
    }
}

pub fn on_records(number: u64, job: &Sheet, last: &[String]) -> String {
    let facts = Facts::of(job).text(number > LENT);
    operation(number, &[&[facts], last].concat())
}

pub fn read(text: &str) -> String {
    writing::read(text.as_bytes())
}

/// The sheet read by the present version, and without its start lines by 01's.
pub fn read_by_both(text: &str) -> String {
    let lines = text.split_inclusive('\n');
    let of_01: String = lines.filter(|line| !line.starts_with("(start")).collect();
    read(text) + &read_by_01(of_01.as_bytes())
}

pub fn print(job: &Sheet, out: usize) -> String {
    let sheet = bytes(sheet::text(job).as_bytes());
    operation(PRINT, &[sheet, fill(WORK, 7), fill(out, 9)])
}

pub fn judge(job: &Sheet) -> String {
    on_records(JUDGE, job, &[fill(WORK, 7)])
}

/// Slice, judge, and try with some orders, by value and lent.
pub fn every(job: &Sheet, orders: &[&[u8]]) -> String {
    let tried = orders.iter().map(|order| {
        let order = [bytes(order)];
        on_records(TRY, job, &order) + &on_records(TRY + LENT, job, &order)
    });
    let parts = [
        on_records(SLICE, job, &[]),
        on_records(SLICE + LENT, job, &[]),
        judge(job),
        on_records(JUDGE + LENT, job, &[fill(WORK, 7)]),
        tried.collect(),
    ];
    parts.concat()
}

/// Every operation of this file, as one script.
pub fn script() -> String {
    [long_jobs(), jobs(), searches(), rows(), sheets()].concat()
}

/// Jobs of 64 and 65 done steps on a route that goes round, and a route of 65 steps.
fn long_jobs() -> String {
    let begin = step(10, [&[0], &[1]], [&[], &[0]]);
    let on = step(20, [&[1], &[1]], [&[0], &[0]]);
    let round = route(2, &[begin, on]);
    let long = |done: usize| job(&round, &round, &[&[10][..], &vec![20; done - 1]].concat());
    let many: Vec<Step> = (1..=65)
        .map(|name| step(name, [&[0], &[1]], [&[], &[]]))
        .collect();
    [
        judge(&long(64)),
        print(&long(64), 705),
        on_records(SLICE, &long(65), &[]),
        on_records(SLICE, &long(2), &[]),
        on_records(SLICE + LENT, &job(&route(2, &many), &round, &[]), &[]),
        read(&sheet::text(&long(65))),
        read(&sheet::text(&job(&route(2, &many), &round, &[]))),
    ]
    .concat()
}

/// Short jobs: other writes, other variables, nine of them, longer routes, other
/// place counts.
fn jobs() -> String {
    let ten = |writes: &[u64]| step(10, [&[0], &[1]], [&[], writes]);
    let twenty = step(20, [&[1], &[2]], [&[0], &[1]]);
    let old = route(2, &[ten(&[0])]);
    let before = step(20, [&[1], &[2]], [&[1], &[0]]);
    let other_writes = job(&old, &route(3, &[ten(&[1]), before]), &[10]);
    let other_variables = job(
        &old,
        &route(2, &[step(30, [&[0], &[1]], [&[], &[1]])]),
        &[10],
    );
    let late = [step(30, [&[2], &[2]], [&[], &[]]), twenty, ten(&[0])];
    let longer = job(&old, &route(3, &late), &[10]);
    let fewer_places = job(&route(3, &late), &old, &[10]);
    let again = step(20, [&[1], &[2]], [&[], &[0]]);
    let first = step(20, [&[0], &[1]], [&[], &[0]]);
    let dropped = job(
        &route(3, &[ten(&[0]), again]),
        &route(2, &[first]),
        &[10, 20],
    );
    let plain = route(2, &[ten(&[])]);
    let nine = route(2, &[ten(&[0, 1, 2, 3, 4, 5, 6, 7, 8])]);
    let last_variable = route(2, &[ten(&[31])]);
    [
        judge(&other_writes),
        judge(&dropped),
        print(&dropped, 200),
        on_records(SLICE, &other_variables, &[]),
        on_records(SLICE + LENT, &other_variables, &[]),
        print(&longer, 7_100),
        on_records(SLICE + LENT, &fewer_places, &[]),
        on_records(SLICE, &job(&nine, &nine, &[10]), &[]),
        on_records(TRY, &longer, &[bytes(&[1, 1])]),
        on_records(TRY, &job(&plain, &plain, &[10]), &[bytes(&[1])]),
        print(&job(&last_variable, &last_variable, &[10]), 100),
        operation(
            READ_INTO,
            &[bytes(sheet::text(&fewer_places).as_bytes()), "3 0 1".into()],
        ),
    ]
    .concat()
}

/// Two steps that put a token on one place: neither can follow the other, unless
/// a third takes it away. And a step that must come before one that takes its
/// place's token for good: the search finds the set without it dead first.
fn searches() -> String {
    let one = |places: [&[u64]; 2]| step(10, places, [&[], &[0]]);
    let two = |places: [&[u64]; 2]| step(20, places, [&[], &[1]]);
    let three = step(30, [&[2], &[3]], [&[1], &[2]]);
    let old = [one([&[0], &[1]]), two([&[1], &[2]]), three.clone()];
    let new = [one([&[0], &[2]]), two([&[1], &[2]]), three];
    let round = step(30, [&[1], &[1]], [&[1], &[2]]);
    let taken = [one([&[1], &[2]]), two([&[0], &[1]]), round];
    [
        judge(&job(
            &route(4, &old),
            &begun(4, &[0, 1], &new),
            &[10, 20, 30],
        )),
        judge(&job(&route(4, &old), &route(3, &taken), &[10, 20, 30])),
        judge(&job(
            &route(3, &old[..2]),
            &begun(3, &[0, 1], &new[..2]),
            &[10, 20],
        )),
    ]
    .concat()
}

/// Steps in a row: 17 with a variable each, of which the last two change places,
/// so that all are kept; and 62, which have 63 places.
fn rows() -> String {
    let row = |order: &[u64]| {
        let steps = (0..).zip(order);
        let steps = steps.map(|(at, &n)| step(n + 1, [&[at], &[at + 1]], [&[], &[n % 32]]));
        route(order.len() as u64 + 1, &steps.collect::<Vec<Step>>())
    };
    let old: Vec<u64> = (0..17).collect();
    let new = [&old[..15], &[16, 15]].concat();
    let done: Vec<u64> = (1..=17).collect();
    let long = row(&(0..62).collect::<Vec<u64>>());
    [
        judge(&job(&row(&old), &row(&new), &done)),
        judge(&job(&long, &long, &done)),
    ]
    .concat()
}

/// Sheets with an entry or a letter too many, with an entry twice, without the end
/// of their last line, or with a route of no step.
fn sheets() -> String {
    let nine = step(10, [&[0], &[1]], [&[0, 1, 2, 3, 4, 5, 6, 7, 8], &[]]);
    let twice = step(10, [&[0, 0], &[1]], [&[], &[]]);
    let plain = route(2, &[step(10, [&[0], &[1]], [&[], &[]])]);
    let text = sheet::text(&job(&plain, &plain, &[10]));
    [
        read(&sheet::text(&job(&route(2, &[nine]), &plain, &[10]))),
        read(&sheet::text(&job(&route(2, &[twice]), &plain, &[10]))),
        read(&text[..text.len() - 2]),
        read(&text.replace("(old ", "(oldx")),
        read(&sheet::text(&job(&plain, &route(2, &[]), &[10]))),
    ]
    .concat()
}

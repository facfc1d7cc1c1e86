//! Start places: one of these operations tells each edit that begins elsewhere, or that
//! reads, writes or refuses a start otherwise, from the right program.

use crate::chosen::{begun, job, judge, on_records, print, read, read_by_both, step};
use crate::chosen::{JUDGE, LENT, READ_INTO, SLICE, TRY, WRITE};
use reference::judge::WORK;
use reference::random::records::{Facts, Records};
use reference::script::writing::{
    bytes, comparisons, fill, hand_in, judge_editions, operation, put, read_by_01,
};
use reference::sheet::{self, Route, Sheet};
use reference::shelf::{Edition, Shelf};

const RUN: u64 = 2;
const TRY_SHEET: u64 = 10;

/// Every operation of this file, as one script.
pub fn script() -> String {
    [rings(), rows(), falling(), lines(), shelves()].concat()
}

/// 10, 20 and 30, each of which reads what the one before wrote; 30 puts the token back
/// on place 2, from which 10 takes it. Begun on these places.
fn ring(start: &[u64]) -> Route {
    let steps = [
        step(10, [&[2], &[0]], [&[], &[0]]),
        step(20, [&[0], &[1]], [&[0], &[1]]),
        step(30, [&[1], &[2]], [&[1], &[2]]),
    ];
    begun(3, start, &steps)
}

/// The same without 30, on two places, and begun on the first.
fn shorter() -> Route {
    let steps = [
        step(10, [&[0], &[1]], [&[], &[0]]),
        step(20, [&[1], &[0]], [&[0], &[1]]),
    ];
    begun(2, &[0], &steps)
}

/// Run, slice, try, judge, write and the names compared, by value and lent.
fn as_records(job: &Sheet, order: &[u8]) -> String {
    let out = fill(sheet::text(job).len(), 9);
    let each = |more: u64| {
        let on = |number, last: &[String]| on_records(number + more, job, last);
        let tried = on(TRY, &[bytes(order)]) + &on(JUDGE, &[fill(WORK, 7)]);
        on(RUN, &[]) + &on(SLICE, &[]) + &tried + &on(WRITE, &[out.clone()])
    };
    each(0) + &each(LENT) + &comparisons(Facts::of(job).text(false))
}

/// The sheet printed, read, and tried in the C form.
fn as_sheet(job: &Sheet, order: &[u8]) -> String {
    let text = sheet::text(job);
    let sheet = bytes(text.as_bytes());
    [
        print(job, 200),
        read_by_both(&text),
        operation(READ_INTO, &[sheet.clone(), "3 3 7".into()]),
        operation(TRY_SHEET, &[sheet, bytes(order)]),
    ]
    .concat()
}

/// Gone round twice and once more, to itself and to a shorter one; begun elsewhere.
fn rings() -> String {
    let done = [10, 20, 30, 10, 20, 30, 10];
    let old = ring(&[2]);
    let jobs: [(Sheet, &[u8]); 7] = [
        (job(&old, &shorter(), &done), &[4, 5, 7]),
        (job(&shorter(), &old, &[10, 20]), &[1, 2]),
        (job(&old, &old, &done), &[1, 2, 3, 4, 5, 6, 7]),
        (job(&old, &ring(&[0]), &[10]), &[]),
        (job(&ring(&[0]), &old, &[20, 30]), &[1, 2]),
        (job(&ring(&[0, 2]), &old, &[20, 10]), &[2, 1]),
        (job(&old, &ring(&[0, 1, 2]), &[]), &[]),
    ];
    let records = jobs.iter().map(|(job, order)| as_records(job, order));
    let sheets = jobs[..2].iter().map(|(job, order)| as_sheet(job, order));
    records.chain(sheets).collect()
}

/// Records with a start that is empty or isn't below the place count, in either route.
/// 6 goes before 7, and the start line before its steps.
fn rows() -> String {
    let starts: [&[u64]; 4] = [&[], &[3], &[0, 3], &[2, 63]];
    let mut script = String::new();
    for start in starts {
        for [old, new] in [[start, &[2]], [&[2], start]] {
            let mut facts = job(&ring(old), &ring(new), &[10]);
            script += &judge(&facts);
            script += &on_records(RUN + LENT, &facts, &[]);
            script += &on_records(WRITE, &facts, &[fill(400, 9)]);
            facts.new.places = 4;
            script += &judge(&facts);
            facts.old.steps[0].name = 0;
            script += &judge(&facts);
            script += &on_records(WRITE + LENT, &facts, &[fill(400, 9)]);
        }
    }
    script
}

/// Sheets with a start that is empty, falls, has a place twice or one that isn't below
/// the place count, in either route, and a step that is at fault too.
fn falling() -> String {
    let starts: [&[u64]; 6] = [&[], &[3], &[0, 3], &[1, 0], &[0, 0], &[2, 0]];
    let mut script = String::new();
    for start in starts {
        for at_new in [false, true] {
            let mut facts = job(&shorter(), &shorter(), &[]);
            let route = [&mut facts.old, &mut facts.new];
            route[usize::from(at_new)].start = start.to_vec();
            script += &print(&facts, 50);
            facts.old.steps[0].ins.clear();
            script += &read(&sheet::text(&facts));
        }
    }
    script
}

/// Start lines that are missing, twice, or nearly are one, in either route.
fn lines() -> String {
    let one = begun(2, &[0], &[step(1, [&[0], &[1]], [&[], &[]])]);
    let text = sheet::text(&job(&one, &one, &[]));
    let (old, new) = text.split_at(text.find("(new").expect("no new route"));
    let mut script = read_by_01(text.as_bytes());
    for line in [
        "",
        "(start 0)\n(start 0)\n",
        "(start 0 )\n",
        "(start0)\n",
        "(start 00)\n",
        "(starts 0)\n",
        "(star 0)\n",
        "(start 0",
        "(step 0)\n",
    ] {
        let [first, second] = [old, new].map(|route| route.replace("(start 0)\n", line));
        script += &read(&(first.clone() + new));
        script += &read(&(old.to_string() + &second));
        script += &read_by_01((first + new).as_bytes());
    }
    script
}

/// Rings as editions, and jobs judged from each to each later one; starts put.
fn shelves() -> String {
    let routes = [ring(&[2]), shorter(), ring(&[0]), ring(&[0, 2])];
    let routes = routes.map(|route| Records::of(&route).by_value());
    let mut shelf = Shelf::empty();
    shelf.len = 2;
    for (at, number) in [(0, 1), (1, 2)] {
        let route = routes[at];
        shelf.editions[at] = Edition { number, route };
    }
    let mut script = hand_in(&shelf) + &put(3, &routes[2]) + &put(4, &routes[3]);
    for edition in 1..4 {
        for target in edition + 1..=4 {
            for done in [[10, 20], [20, 30]] {
                script += &judge_editions([edition, target], &done, fill(WORK, 7));
            }
        }
    }
    for start in [0, 8, 1 << 63] {
        let mut route = routes[0];
        route.start = start;
        script += &put(5, &route);
    }
    script
}

//! The mark in sheets, in records and on a shelf: one of these operations tells each
//! edit that drops it, or reads or writes it elsewhere, from the right program.

use crate::chosen::{cloth, job, on_records, read_by_both, route, step};
use crate::chosen::{LENT, READ_INTO, SLICE, WRITE};
use reference::judge::WORK;
use reference::random::records::Records;
use reference::script::writing::{bytes, fill, hand_in, judge_editions, operation, put};
use reference::sheet::{self, Route, Sheet, Step};
use reference::shelf::{Edition, Shelf};

/// Every operation of this file, as one script.
pub fn script() -> String {
    [written(), places(), last_of_many(), shelves()].concat()
}

/// 10 and 20 in a row; 10 writes nothing.
fn row(marks: [bool; 2]) -> Route {
    let steps = [
        step(10, [&[0], &[1]], [&[], &[]]),
        step(20, [&[1], &[2]], [&[], &[0]]),
    ];
    let marked = |(step, mark): (Step, bool)| if mark { cloth(step) } else { step };
    let steps: Vec<Step> = steps.into_iter().zip(marks).map(marked).collect();
    route(3, &steps)
}

/// Jobs with a mark on one of the steps, and on all.
fn jobs() -> [Sheet; 5] {
    let (none, all) = ([false; 2], [true; 2]);
    let (first, second) = ([true, false], [false, true]);
    let marks = [
        [first, none],
        [second, none],
        [none, first],
        [none, second],
        [all, all],
    ];
    marks.map(|[old, new]| job(&row(old), &row(new), &[10]))
}

/// Each job written, with room and with a byte too few, and read again.
fn written() -> String {
    let each = |job: &Sheet| {
        let text = sheet::text(job);
        let into = [bytes(text.as_bytes()), "3 2 2".into()];
        [
            on_records(WRITE, job, &[fill(text.len(), 9)]),
            on_records(WRITE + LENT, job, &[fill(text.len(), 9)]),
            on_records(WRITE, job, &[fill(text.len() - 1, 9)]),
            read_by_both(&text),
            operation(READ_INTO, &into),
        ]
        .concat()
    };
    jobs().iter().map(each).collect()
}

/// A mark in each place of a line, and forms that nearly are one, by both versions.
fn places() -> String {
    let one = route(2, &[step(10, [&[0], &[1]], [&[], &[]])]);
    let plain = sheet::text(&job(&one, &one, &[10]));
    let ends = [
        ("(old 2)", "(old 2 (cloth))"),
        ("(step 10", "(step 10 (cloth)"),
        ("(in 0)", "(in 0) (cloth)"),
        ("(out 1)", "(out 1) (cloth)"),
        ("(read)", "(read) (cloth)"),
        ("(read)", "(read (cloth))"),
        ("(write))", "(write (cloth)))"),
        ("(write))", "(write)) (cloth)"),
        ("(write))", "(write) (cloth) (cloth))"),
        ("(write))", "(write)(cloth))"),
        ("(write))", "(write)  (cloth))"),
        ("(write))", "(write) (cloth) )"),
        ("(write))", "(write) (cloth"),
        ("(write))", "(write) (clothe))"),
        ("(write))", "(write) (write))"),
        ("(done 10)", "(done 10 (cloth))"),
    ];
    let each = |(from, to): &(&str, &str)| read_by_both(&plain.replacen(from, to, 1));
    ends.iter().map(each).collect()
}

/// A route of 64 steps whose last cuts cloth, by value and lent.
fn last_of_many() -> String {
    let on = |name| step(name, [&[1], &[1]], [&[], &[]]);
    let first = step(1, [&[0], &[1]], [&[], &[]]);
    let mut steps = vec![first];
    steps.extend((2..64).map(on));
    steps.push(cloth(on(64)));
    let many = route(2, &steps);
    let job = job(&many, &many, &[1, 64, 2, 64]);
    on_records(SLICE, &job, &[]) + &on_records(SLICE + LENT, &job, &[])
}

/// Editions with and without marks, put and handed in, and the job of each judged
/// against each later one; a record past `len` is marked too.
fn shelves() -> String {
    let marks = [[true, true], [true, false], [false, true], [true, true]];
    let routes = marks.map(|marks| {
        let mut route = Records::of(&row(marks)).by_value();
        route.records[5].cloth = true;
        route
    });
    let mut shelf = Shelf::empty();
    shelf.len = 2;
    for (at, number) in [(0, 1), (1, 2)] {
        let route = routes[at];
        shelf.editions[at] = Edition { number, route };
    }
    let mut script = hand_in(&shelf) + &put(3, &routes[2]) + &put(4, &routes[3]);
    for edition in 1..4 {
        for target in edition + 1..=4 {
            script += &judge_editions([edition, target], &[10, 20], fill(WORK, 7));
        }
    }
    script
}

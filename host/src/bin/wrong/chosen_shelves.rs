//! Operations on shelves at their limits: one of them tells each edit of the
//! shelf from the right program.

use reference::judge::WORK;
use reference::record::{Record, RouteByValue};
use reference::script::writing::{fill, hand_in, judge_editions, put};
use reference::shelf::{Edition, Shelf};

const FULL: [u32; 8] = [1, 2, 3, 4, 5, 6, 7, 8];

/// 10 and 20 in a row, begun before them; each writes a variable.
fn old() -> RouteByValue {
    let steps = [record(10, [1, 2], 1), record(20, [2, 4], 2)];
    RouteByValue::of(3, 1, 2, &steps)
}

/// The other way round, and 30 after them; a record stands past `len`.
fn new() -> RouteByValue {
    let steps = [
        record(20, [1, 2], 2),
        record(10, [2, 4], 1),
        record(30, [4, 8], 4),
        record(9, [0, 1 << 63], 8),
    ];
    RouteByValue::of(4, 1, 3, &steps)
}

fn record(name: u32, [ins, outs]: [u64; 2], writes: u32) -> Record {
    Record {
        name,
        ins,
        outs,
        reads: 0,
        writes,
        cloth: false,
    }
}

/// A shelf of these numbers, its routes in turn old and new.
fn shelf(numbers: &[u32]) -> Shelf {
    let mut shelf = Shelf::empty();
    shelf.len = numbers.len() as u64;
    for (at, &number) in numbers.iter().enumerate() {
        let route = [old(), new()][at % 2];
        shelf.editions[at] = Edition { number, route };
    }
    shelf
}

fn judge(edition: u32, target: u32, work: usize) -> String {
    judge_editions([edition, target], &[10, 20], fill(work, 7))
}

/// Every operation of this file, as one script.
pub fn script() -> String {
    let parts = [
        rising_numbers(),
        full_shelves(),
        routes_rows(),
        bad_shelves(),
        pairs(),
        unused_entries(),
        long_names(),
    ];
    parts.concat()
}

/// Numbers at their limits, equal and falling ones, on the shelf that a script
/// begins with.
fn rising_numbers() -> String {
    let numbers = [0, 65_536, 1, 1, 0, 5, 5, 4, 65_536, 65_542, 65_535, 65_536];
    numbers.map(|number| put(number, &new())).concat()
}

/// A ninth edition: 20 goes before 21, and the route's rows after both.
fn full_shelves() -> String {
    let wrong = RouteByValue::of(1, 1, 0, &[]);
    let puts = [put(9, &old()), put(8, &old()), put(65_536, &old())];
    let wrong = [put(9, &wrong), put(8, &wrong)];
    let seven = hand_in(&shelf(&FULL[..7])) + &put(8, &new());
    hand_in(&shelf(&FULL)) + &puts.concat() + &wrong.concat() + &seven + &put(9, &new())
}

/// Routes that the rows 4, 2, 3, 5, 6 and 7 refuse, and one that goes round.
fn routes_rows() -> String {
    let with = |change: fn(&mut RouteByValue)| {
        let mut route = old();
        change(&mut route);
        put(7, &route)
    };
    let puts = [
        with(|route| route.len = 0),
        with(|route| route.len = 65),
        with(|route| route.places = 65),
        with(|route| route.records[1].name = 0),
        with(|route| route.records[1].outs = 0),
        with(|route| route.records[1].name = 10),
        with(|route| route.places = 4),
        with(|route| route.records[1].outs = 5),
        with(|route| route.start = 8),
        with(|route| route.start = 0),
        put(0, &RouteByValue::of(1, 1, 0, &[])),
    ];
    hand_in(&shelf(&[5, 6])) + &puts.concat()
}

/// Bad shelves of every kind: an edition that a good one takes, and a job; of
/// the first also a number that none takes, a pair that isn't stored, and a
/// short work slice.
fn bad_shelves() -> String {
    let numbers: [&[u32]; 8] = [
        &[0],
        &[0, 3],
        &[65_536],
        &[3, 65_536],
        &[3, 3],
        &[4, 3],
        &[1, 3, 3],
        &[1, 2, 3, 4, 5, 6, 7, 7],
    ];
    let mut shelves: Vec<Shelf> = numbers.map(shelf).to_vec();
    for (len, numbers) in [(9, &FULL[..]), ((1 << 32) + 1, &[3])] {
        shelves.push(Shelf {
            len,
            ..shelf(numbers)
        });
    }
    let both = put(65_535, &old()) + &judge(3, 65_536, WORK);
    let each = |shelf: &Shelf| hand_in(shelf) + &both;
    let all: String = shelves.iter().map(each).collect();
    let first = [put(0, &old()), judge(9, 8, WORK), judge(9, 8, WORK - 1)];
    hand_in(&shelves[0]) + &first.concat() + &all
}

/// Editions that aren't stored, or only past `len`, a target that is equal or
/// earlier, and a short work slice before these.
fn pairs() -> String {
    let pairs = [
        [3, 5],
        [5, 7],
        [3, 7],
        [5, 3],
        [3, 3],
        [3, 4],
        [4, 5],
        [3, 65_541],
        [65_539, 5],
        [0, 3],
    ];
    let judged = pairs.map(|[edition, target]| judge(edition, target, WORK));
    let shorter = Shelf {
        len: 2,
        ..shelf(&[3, 5, 7])
    };
    let past = [judge(3, 7, WORK), judge(5, 3, WORK - 1), judge(3, 5, 0)];
    let empty = hand_in(&Shelf::empty()) + &judge(0, 0, WORK);
    hand_in(&shelf(&[3, 5, 7])) + &judged.concat() + &hand_in(&shorter) + &past.concat() + &empty
}

/// What stands past `len` stays, on the shelf and in a route.
fn unused_entries() -> String {
    let mut longer = shelf(&FULL);
    longer.len = 2;
    longer.editions[6] = Edition::blank();
    hand_in(&longer) + &put(2, &new()) + &put(9, &new()) + &put(9, &old()) + &judge(2, 9, WORK)
}

/// Two steps whose names end with the same 16 bits, one way round and the other.
fn long_names() -> String {
    let [mut one, mut other] = [old(), new()];
    one.records[1].name = 65_546;
    other.records[0].name = 65_546;
    other.records[2].name = u32::MAX;
    let judged = judge_editions([1, 2], &[10, 65_546], fill(WORK, 7));
    hand_in(&Shelf::empty()) + &put(1, &one) + &put(2, &other) + &judged
}

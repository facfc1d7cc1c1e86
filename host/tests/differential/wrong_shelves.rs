//! Scripts of shelves, written by hand: numbers, lengths and routes at and past
//! their limits, and scripts that end in the middle of an operation.

use crate::drive::compare_script;
use reference::judge::WORK;
use reference::record::{Record, RouteByValue};
use reference::script::writing::{fill, hand_in, judge_editions, put};
use reference::shelf::{Edition, Shelf, MOST_EDITIONS};

const FIRE: &str = "1 1 10 1 2 0 1 0\n";

/// A step from one place to the next that writes a variable of its own; 20 cuts cloth.
fn record(name: u32, place: u32) -> Record {
    Record {
        name,
        ins: 1 << place,
        outs: 2 << place,
        reads: 0,
        writes: 1 << (name % 32),
        cloth: name == 20,
    }
}

/// Steps of these names in a row, begun before the first.
fn chain(names: &[u32]) -> RouteByValue {
    let records: Vec<Record> = (0..)
        .zip(names)
        .map(|(at, &name)| record(name, at))
        .collect();
    RouteByValue::of(names.len() as u32 + 1, 1, names.len() as u64, &records)
}

/// The chain of 10, 20 and 30 with a record past `len`.
fn right() -> RouteByValue {
    let mut route = chain(&[10, 20, 30]);
    route.records[5] = record(0, 40);
    route
}

/// Routes that put refuses by each of the rows, and right ones at a limit, with another
/// mark, start or reading, or going round.
fn routes() -> Vec<RouteByValue> {
    let mut all = vec![right(), chain(&[]), chain(&[10, 10]), chain(&[10, 0])];
    all.extend([65_536, 65_546, u32::MAX].map(|name| chain(&[10, name])));
    all.extend([0, 3, 5, 64, 65, u32::MAX].map(|places| RouteByValue { places, ..right() }));
    all.extend([0, 2, 4, 64, 65, 1 << 32, u64::MAX].map(|len| RouteByValue { len, ..right() }));
    all.extend(
        [0, 2, 8, 15, 16, 17, 1 << 63, u64::MAX].map(|start| RouteByValue { start, ..right() }),
    );
    for mask in [0, 0x1ff, 1 << 63, 1, 8 | 1] {
        let mut route = right();
        route.records[2].outs = mask;
        all.push(route);
    }
    for at in [0, 1] {
        let mut route = right();
        route.records[at].cloth ^= true;
        all.push(route);
    }
    // what 10, 20 itself and 30 write, and what only the record past `len` or none writes
    for reads in [1 << 10, 1 << 20, 1 << 30, 1, 1 << 31, 1 << 10 | 1] {
        let mut route = right();
        route.records[1].reads = reads;
        all.push(route);
    }
    all
}

/// A shelf of these numbers. Its routes are in turn as they were and turned round.
fn numbered(numbers: &[u32]) -> Shelf {
    let routes = [right(), chain(&[30, 20, 10]), chain(&[20, 10])];
    let mut shelf = Shelf::empty();
    shelf.len = numbers.len() as u64;
    let editions = shelf.editions.iter_mut().zip(routes.iter().cycle());
    for ((edition, route), &number) in editions.zip(numbers) {
        *edition = Edition {
            number,
            route: *route,
        };
    }
    shelf
}

/// Good shelves, and bad ones of every kind.
fn shelves() -> Vec<Shelf> {
    let full = [1, 2, 3, 4, 5, 6, 7, 8];
    let numbers: [&[u32]; 20] = [
        &[],
        &[1],
        &[5],
        &[65_535],
        &[3, 5],
        &[65_534, 65_535],
        &[5, 6, 65_535],
        &full,
        &[
            65_528, 65_529, 65_530, 65_531, 65_532, 65_533, 65_534, 65_535,
        ],
        &[0],
        &[65_536],
        &[u32::MAX],
        &[0, 5],
        &[5, 5],
        &[6, 5],
        &[5, 65_536],
        &[65_541, 6],
        &[1, 2, 3, 4, 5, 6, 7, 7],
        &[1, 2, 3, 4, 5, 6, 8, 7],
        &[2, 1, 3, 4, 5, 6, 7, 8],
    ];
    let mut all: Vec<Shelf> = numbers.map(numbered).to_vec();
    for len in [0, 1, 3, 5, 7, 9, 10, 256, (1 << 32) + 5, 1 << 63, u64::MAX] {
        all.push(Shelf {
            len,
            ..numbered(&full)
        });
        all.push(Shelf {
            len,
            ..numbered(&[3, 5])
        });
    }
    all
}

fn judge(pair: [u32; 2], done: &[u64], work: usize) -> String {
    judge_editions(pair, done, fill(work, 9))
}

/// Compares so many of these operations at a time, each after the shelf.
#[track_caller]
fn compare_each(name: &str, shelf: &Shelf, operations: &[String]) {
    let begin = hand_in(shelf);
    for part in operations.chunks(60) {
        let script: String = part.iter().map(|one| begin.clone() + one).collect();
        let answers = compare_script(name, &script);
        assert_eq!(answers.len(), 2 * part.len());
    }
}

#[test]
fn numbers_put_on_each_shelf() {
    let numbers = [
        0,
        1,
        4,
        5,
        6,
        8,
        9,
        65_534,
        65_535,
        65_536,
        65_542,
        u32::MAX,
    ];
    let routes = [right(), chain(&[]), chain(&[10, 10])];
    let puts = numbers.map(|number| routes.each_ref().map(|route| put(number, route)));
    for shelf in shelves() {
        compare_each("numbers-put", &shelf, &puts.concat());
    }
}

#[test]
fn routes_put_on_a_shelf() {
    let puts: Vec<String> = routes().iter().map(|route| put(7, route)).collect();
    for numbers in [&[][..], &[6], &[1, 2, 3, 4, 5, 6]] {
        compare_each("routes-put", &numbered(numbers), &puts);
    }
}

#[test]
fn pairs_judged_from_each_shelf() {
    let pairs = [
        [3, 5],
        [5, 3],
        [3, 3],
        [5, 5],
        [1, 2],
        [1, 8],
        [7, 8],
        [0, 0],
        [0, 5],
        [5, 6],
    ];
    let high = [
        [5, 65_535],
        [65_534, 65_535],
        [65_535, 65_536],
        [65_539, 65_541],
        [6, 65_541],
    ];
    let mut judges = Vec::new();
    for pair in pairs.into_iter().chain(high) {
        judges.extend([0, WORK - 1, WORK, WORK + 1].map(|work| judge(pair, &[10, 20], work)));
    }
    for shelf in shelves() {
        compare_each("pairs", &shelf, &judges);
    }
}

/// Each route as the edition and as the target, with done lists at their limits.
#[test]
fn routes_judged_from_a_shelf() {
    let lists: [&[u64]; 11] = [
        &[],
        &[10],
        &[10, 20, 30],
        &[20, 10],
        &[40],
        &[0],
        &[65_536],
        &[10, 65_546],
        &[10, 4_294_967_295],
        &[10; 64],
        &[10; 65],
    ];
    let judges = lists.map(|done| [judge([3, 4], done, WORK), judge([4, 5], done, WORK)]);
    for route in routes() {
        let mut shelf = numbered(&[3, 4, 5]);
        shelf.editions[1].route = route;
        compare_each("routes-judged", &shelf, &judges.concat());
    }
}

/// Nine and more editions in a row, and jobs between.
#[test]
fn puts_in_a_row() {
    for rise in [1, 9_362, 9_363] {
        let turn = |at: u32| {
            let route = [right(), chain(&[30, 20, 10])][at as usize % 2];
            let before = at.saturating_sub(1) * rise;
            put(at * rise, &route) + &judge([before, at * rise], &[10, 20], WORK)
        };
        let script: String = (0..12).map(turn).collect();
        assert_eq!(compare_script("in-a-row", &script).len(), 24);
    }
}

/// A shelf of which every number is at its largest stays as it is.
#[test]
fn a_shelf_with_every_number_at_its_largest() {
    let largest = Record {
        name: u32::MAX,
        ins: u64::MAX,
        outs: u64::MAX,
        reads: u32::MAX,
        writes: u32::MAX,
        cloth: true,
    };
    let mut edition = Edition {
        number: u32::MAX,
        route: RouteByValue::of(u32::MAX, u64::MAX, u64::MAX, &[largest; 64]),
    };
    let most = u32::MAX;
    for (number, len) in [(most, u64::MAX), (most, 1), (1, 1), (1, 0)] {
        edition.number = number;
        let editions = [edition; MOST_EDITIONS];
        let shelf = Shelf { len, editions };
        let script = hand_in(&shelf)
            + &put(most, &edition.route)
            + &judge([most, most], &[most.into(); 100], WORK)
            + &put(1, &right())
            + &judge([1, 1], &[10], WORK);
        assert_eq!(compare_script("largest-shelf", &script).len(), 5);
    }
}

/// Blank editions and records may be given too.
#[test]
fn counts_of_what_is_given() {
    for count in 0..=MOST_EDITIONS {
        let blanks = vec!["0 0 0 0 0"; count].join(" ");
        let more = " 0 0 0 0 0 0".repeat(count);
        let route = format!("2 1 1 {} 10 1 2 0 1 1{more}", count + 1);
        let script = format!("20 {count} {count} {blanks} 21 1 {route} 20 0 0 21 1 {route}");
        assert_eq!(compare_script("counts", &script).len(), 4);
    }
}

/// Without a shelf handed in a script begins with the empty one; other
/// operations leave the shelf in hand alone.
#[test]
fn the_shelf_in_hand() {
    let first = put(5, &right());
    let second = put(6, &chain(&[20, 10]));
    let judged = judge([5, 6], &[10, 20], WORK);
    let orders = [
        [&first, FIRE, &second, &judged, FIRE, &first, &judged],
        [&judged, &first, &judged, FIRE, "7 0\n", &second, &judged],
        [
            &second, &first, &judged, &second, "20 0 0\n", &first, &judged,
        ],
    ];
    for order in orders {
        assert_eq!(compare_script("in-hand", &order.concat()).len(), 7);
    }
}

/// An operation that isn't whole ends the script, and so does a number past
/// every limit.
#[test]
fn scripts_that_are_not_whole() {
    let whole = [
        "20 3 2 5 2 1 1 1 10 1 2 0 1 0 6 3 1 2 2 10 1 2 0 1 0 20 2 4 1 2 1",
        "21 7 3 1 2 2 20 1 2 1 2 1 10 2 4 0 1 0",
        "22 5 6 1 10 8192 9",
    ];
    for operation in whole {
        let words: Vec<&str> = operation.split(' ').collect();
        for at in 0..words.len() {
            let cut = words[..at].join(" ");
            compare_script("cut", &format!("{FIRE}{cut}"));
            let most = "18446744073709551616";
            let past = [&words[..at], &[most], &words[at + 1..]].concat();
            let script = format!("{FIRE}{}\n{FIRE}", past.join(" "));
            assert_eq!(compare_script("past", &script).len(), 1);
        }
    }
}

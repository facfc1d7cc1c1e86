//! A reading that nobody writes (02, A.7), worked by hand: what counts as a write, the
//! line that is told, the rows before and after, and who looks for it.

use crate::common::{both, cut, lists, refusal, refused, sheet, step};
use crate::common::{turned_round, with_line, with_lines, OLD};
use reference::fit::{try_order, try_sheet};
use reference::judge::{judge, WORK};
use reference::lookup::comparisons;
use reference::net::run;
use reference::print::{listing_of, print};
use reference::random::records::Records;
use reference::record::{Record, RouteByValue};
use reference::sheet::{job_part, read, read_into, write, Route};
use reference::shelf::{Edition, Shelf};
use reference::slice::slice;

/// A step: its name, what it reads and what it writes.
type Line<'a> = (u64, &'a str, &'a str);

/// Steps in a row, each from its place to the next.
fn row(word: &str, steps: &[Line]) -> String {
    let mut text = format!("({word} {})\n(start 0)\n", steps.len() + 1);
    for (place, &(name, reads, writes)) in steps.iter().enumerate() {
        let (ins, outs) = (format!(" {place}"), format!(" {}", place + 1));
        text += &step(name, &ins, &outs, reads, writes);
    }
    text
}

/// The same row as both routes, with nothing done.
fn twice(steps: &[Line]) -> String {
    sheet(&row("old", steps), &row("new", steps), &[])
}

#[track_caller]
fn moves(text: &str) {
    let listing = listing_of(text.as_bytes());
    assert!(
        listing.starts_with("(moved "),
        "{listing}, of sheet\n{text}"
    );
}

/// Example E: 30, which isn't done, reads what only 10 wrote.
fn example_e() -> String {
    let new = row("new", &[(20, "", " 1"), (30, " 0 1", " 2")]);
    sheet(OLD, &new, &[10, 20])
}

/// All that run on a done list tell it, and change no lent slice.
#[test]
fn who_looks_for_it() {
    let text = example_e();
    let told = refusal(23, 9);
    let facts = read(text.as_bytes()).unwrap();
    assert_eq!(run(&facts), Err(told));
    assert_eq!(slice(&facts), Err(told));
    assert_eq!(comparisons(&facts), Err(told));
    for order in [&[][..], &[1, 2], &[2], &[0], &[255; 300]] {
        assert_eq!(try_order(&facts, order), Err(told));
        assert_eq!(try_sheet(text.as_bytes(), order), Err(told));
    }
    let mut work = [9; WORK + 1];
    assert_eq!(judge(&facts, &mut work), Err(told));
    let mut out = [7; 16];
    assert_eq!(print(text.as_bytes(), &mut work, &mut out), Ok(15));
    assert_eq!(&out, b"(refused 23 9)\n\x07");
    let mut out = [7; 14];
    let short = print(text.as_bytes(), &mut work, &mut out);
    assert_eq!(short, Err(refusal(15, 15)));
    assert_eq!((work, out), ([9; WORK + 1], [7; 14]));
    let short = print(text.as_bytes(), &mut work[..WORK - 1], &mut out);
    assert_eq!(short, Err(refusal(14, 0)));
}

/// Reading, the job part and writing let it through.
#[test]
fn who_does_not() {
    let text = example_e();
    let facts = read(text.as_bytes()).unwrap();
    assert_eq!(facts.new.steps[1].reads, [0, 1]);
    assert_eq!(read_into(text.as_bytes(), [3, 2, 2]).as_ref(), Ok(&facts));
    let short = read_into(text.as_bytes(), [3, 1, 2]);
    assert_eq!(short, Err(refusal(15, 2)));
    let part = &text.as_bytes()[text.find("(job)").unwrap()..];
    assert_eq!(job_part(text.as_bytes()), (Ok(()), part));
    let mut out = vec![7; text.len()];
    assert_eq!(write(&facts, &mut out), Ok(text.len()));
    assert_eq!(out, text.as_bytes());
    let short = write(&facts, &mut out[1..]);
    assert_eq!(short, Err(refusal(15, text.len())));
}

/// A step's own write counts, though it reads a blank.
#[test]
fn its_own_write() {
    let listing = "(moved (kept 1) (dropped 0))\n(order 1)\n(marking 1)\n(value 5 1)\n";
    let steps = [(10, " 5", " 5")];
    lists(&row("old", &steps), &row("new", &steps), &[10], listing);
    moves(&twice(&[(10, " 0 5 31", " 0 5 31")]));
    refused(&twice(&[(10, " 0 5 31", " 0 31")]), 23, 3);
}

/// So does a later step's, in the order of the lines and of firing, and an earlier one's.
#[test]
fn another_steps_write() {
    moves(&twice(&[(10, " 5", ""), (20, "", " 5")]));
    moves(&twice(&[(10, "", " 5"), (20, " 5", "")]));
    moves(&twice(&[
        (10, " 5 6", " 7"),
        (20, " 7", " 6"),
        (30, "", " 5"),
    ]));
    // The last of 64 steps writes what the first one reads.
    let mut steps = step(1, " 0", " 1", " 9", "");
    for name in 2..=64 {
        let writes = if name == 64 { " 9" } else { "" };
        steps += &step(name, " 0", " 1", "", writes);
    }
    let (old, new) = both(2, " 0", &steps);
    moves(&sheet(&old, &new, &[1]));
    let (old, new) = both(2, " 0", &steps.replace("(write 9)", "(write 8)"));
    refused(&sheet(&old, &new, &[1]), 23, 3);
}

/// Only whether it is written counts: not whether the step is done, or can be.
#[test]
fn steps_that_are_not_done() {
    // 30 starts on a place that never has a token.
    let steps = step(10, " 0", " 1", " 5", "") + &step(30, " 2", " 0", "", " 5");
    let (old, new) = both(3, " 0", &steps);
    let listing = "(moved (kept 1) (dropped 0))\n(order 1)\n(marking 1)\n";
    lists(&old, &new, &[10], listing);
    let (old, new) = both(3, " 0", &steps.replace("(write 5)", "(write)"));
    refused(&sheet(&old, &new, &[10]), 23, 3);
    // A step that reads it is told, done or not, and also where nothing is.
    let steps = [(10, "", " 0"), (20, " 7", " 1")];
    for done in [&[][..], &[10], &[10, 20]] {
        let text = sheet(&row("old", &steps), &row("new", &steps), done);
        refused(&text, 23, 4);
    }
}

/// Of two such steps the first line is told, wherever they stand in the net.
#[test]
fn the_first_such_step() {
    let reads = |variable| step(20, " 1", " 2", variable, " 1");
    let thirty = step(30, " 2", " 3", " 0 9", " 2");
    refused(&with_lines(&[(4, &reads(" 8")), (5, &thirty)]), 23, 4);
    refused(&with_lines(&[(4, &reads("")), (5, &thirty)]), 23, 5);
    let new = step(10, " 1", " 2", " 8", " 0");
    refused(&with_lines(&[(9, &new), (10, &thirty)]), 23, 9);
    refused(&with_lines(&[(10, &thirty)]), 23, 10);
    // The line that comes first is of the step that is done last.
    let last = step(30, " 1", " 2", " 8", "");
    let first = step(10, " 0", " 1", " 9", "");
    let (old, new) = both(3, " 0", &(last + &first));
    refused(&sheet(&old, &new, &[10, 30]), 23, 3);
}

/// One variable that nobody writes, of all that a step reads.
#[test]
fn one_of_eight() {
    let eight = " 0 1 2 3 4 5 6 31";
    moves(&twice(&[(10, eight, ""), (20, "", eight)]));
    for missing in [" 0", " 4", " 31"] {
        let others = &eight.replace(missing, "")[..];
        refused(&twice(&[(10, eight, ""), (20, "", others)]), 23, 3);
        refused(&twice(&[(10, "", others), (20, eight, "")]), 23, 4);
    }
    // It is written as 1, and read as 11 and 21.
    for reads in [" 11", " 21", " 1 11"] {
        refused(&twice(&[(10, "", " 1"), (20, reads, "")]), 23, 4);
    }
}

/// A marked step reads and writes as others do.
#[test]
fn marked_steps() {
    let ten = step(10, " 0", " 1", "", " 0");
    for (reads, writes, row) in [(" 0", "", 0), (" 5", " 5", 0), (" 5", "", 23)] {
        let (old, new) = both(
            3,
            " 0",
            &(ten.clone() + &cut(20, " 1", " 2", reads, writes)),
        );
        let text = sheet(&old, &new, &[10, 20]);
        match row {
            0 => moves(&text),
            _ => refused(&text, row, 4),
        }
    }
    let cuts = cut(10, " 0", " 1", "", " 5");
    let (old, new) = both(3, " 0", &(cuts + &step(20, " 1", " 2", " 5", "")));
    moves(&sheet(&old, &new, &[10, 20]));
}

/// What only the other route writes is written by nobody.
#[test]
fn the_other_routes_writes() {
    let reads = [(10, " 5", " 0"), (20, "", " 1")];
    let writes = [(10, "", " 0"), (20, "", " 1 5")];
    let sheet = |old: &[Line], new: &[Line]| sheet(&row("old", old), &row("new", new), &[]);
    refused(&sheet(&reads, &writes), 23, 3);
    refused(&sheet(&writes, &reads), 23, 7);
    refused(&sheet(&reads, &reads), 23, 3);
    let whole = [(10, " 5", " 0"), (20, "", " 1 5")];
    moves(&sheet(&whole, &writes));
    moves(&sheet(&writes, &whole));
    // Each reads what only the other writes: the old route is told.
    let others = [(10, "", " 5"), (20, " 0", " 1")];
    let crossed = [(10, " 5", " 0"), (20, "", " 1")];
    refused(&sheet(&crossed, &others), 23, 3);
    refused(&sheet(&others, &crossed), 23, 4);
}

/// Changes to example A, each with the row and the line that it is refused by, in the
/// order in which they are told.
fn changes() -> Vec<(u32, usize, String)> {
    let nameless = step(0, " 2", " 3", " 0 1", " 2");
    let reads = |name, ins, outs, writes| step(name, ins, outs, " 7", writes);
    vec![
        (2, 10, nameless),
        (6, 1, "(old 5)\n".into()),
        (7, 2, "(start)\n".into()),
        (23, 4, reads(20, " 1", " 2", " 1")),
        (6, 6, "(new 5)\n".into()),
        (7, 7, "(start)\n".into()),
        (23, 9, reads(10, " 1", " 2", " 0")),
        (8, 12, "(done 40)\n".into()),
        (9, 13, "(done 10)\n".into()),
    ]
}

/// 6, 7 and 23 of the old route, then of the new one, behind all lines and before 8.
#[test]
fn the_order_of_rows() {
    let all = changes();
    for (at, (row, line, text)) in all.iter().enumerate() {
        refused(&with_line(*line, text), *row, *line);
        for (_, other_line, other) in &all[at + 1..] {
            refused(
                &with_lines(&[(*line, text), (*other_line, other)]),
                *row,
                *line,
            );
        }
        let rest: Vec<(usize, &str)> = all[at..].iter().map(|(_, l, t)| (*l, &t[..])).collect();
        refused(&with_lines(&rest), *row, *line);
    }
}

/// It goes before rows 10 to 13.
#[test]
fn before_what_stops_a_move() {
    let (old, new, done) = turned_round(17);
    lists(&old, &new, &done, "(refused 10 39)\n");
    let last = "(read) (write 16)";
    let reads = |route: &str| route.replace(last, "(read 31) (write 16)");
    lists(&old, &reads(&new), &done, "(refused 23 22)\n");
    lists(&reads(&old), &new, &done, "(refused 23 19)\n");
    lists(&reads(&old), &reads(&new), &done, "(refused 23 19)\n");
    let thirty = step(30, " 2", " 3", " 0 1 31", " 2");
    let lacks = step(11, " 1", " 2", "", " 0");
    refused(&with_line(9, &lacks), 11, 12);
    refused(&with_lines(&[(9, &lacks), (10, &thirty)]), 23, 10);
    let other = step(10, " 1", " 2", "", " 0 3");
    refused(&with_line(9, &other), 12, 12);
    refused(&with_lines(&[(9, &other), (10, &thirty)]), 23, 10);
    let one_done = |thirty: &str| with_lines(&[(10, thirty), (13, ""), (14, "")]);
    refused(&one_done(&step(30, " 2", " 3", " 0 1", " 2")), 13, 11);
    refused(&one_done(&thirty), 23, 10);
}

/// The old route of example A, with 20 reading these.
fn edition(reads: &str) -> Route {
    let text = with_line(4, &step(20, " 1", " 2", reads, " 1"));
    read(text.as_bytes()).unwrap().old
}

fn by_value(route: &Route) -> RouteByValue {
    Records::of(route).by_value()
}

/// Put tells it as of an old route, after all of its other rows, and hands the shelf
/// back as it came.
#[test]
fn on_a_shelf() {
    let whole = by_value(&edition(" 0"));
    let mut wrong = edition(" 0 7");
    let mut shelf = Shelf::empty();
    shelf.put(3, &whole).unwrap();
    let before = shelf.clone();
    let mut put = |number, route: &Route| {
        let answer = shelf.put(number, &by_value(route));
        assert_eq!(shelf, before);
        answer
    };
    assert_eq!(put(4, &wrong), Err(refusal(23, 4)));
    assert_eq!(put(3, &wrong), Err(refusal(20, 0)));
    wrong.start.clear();
    assert_eq!(put(4, &wrong), Err(refusal(7, 2)));
    wrong.places = 5;
    assert_eq!(put(4, &wrong), Err(refusal(6, 1)));
    wrong.steps[2].name = 0;
    assert_eq!(put(4, &wrong), Err(refusal(2, 5)));
    let wrong = by_value(&edition(" 7"));
    for number in 4..=10 {
        shelf.put(number, &whole).unwrap();
    }
    assert_eq!(shelf.put(11, &wrong), Err(refusal(21, 0)));
    shelf.editions[0].number = 0;
    assert_eq!(shelf.put(11, &wrong), Err(refusal(21, 1)));
}

/// A record past `len` writes nothing.
#[test]
fn a_writer_past_len() {
    let route = edition(" 2");
    let records: Vec<Record> = route.steps.iter().map(Record::of).collect();
    let by_len = |len| RouteByValue::of(3, 1, len, &records);
    let mut shelf = Shelf::empty();
    assert_eq!(shelf.put(1, &by_len(2)), Err(refusal(23, 4)));
    let whole = RouteByValue::of(4, 1, 3, &records);
    assert_eq!(shelf.put(1, &whole), Ok(()));
}

/// A shelf that is handed in may hold such a route: judge tells it at the lines of the
/// sheet with the two routes, after its own rows.
#[test]
fn between_editions() {
    let numbers = [3, 5, 7, 9];
    let reads = [" 0", " 7", " 0", " 8"];
    let mut shelf = Shelf::empty();
    for (at, (number, reads)) in numbers.into_iter().zip(reads).enumerate() {
        let route = by_value(&edition(reads));
        shelf.editions[at] = Edition { number, route };
    }
    shelf.len = 4;
    let judged = |shelf: &Shelf, pair: [u32; 2], work: usize| {
        let answer = shelf.judge(pair[0], pair[1], &[10], &mut vec![9; work]);
        answer.map(|moved| moved.straight)
    };
    for (pair, answer) in [
        ([3, 7], Ok(true)),
        ([3, 5], Err(refusal(23, 9))),
        ([5, 7], Err(refusal(23, 4))),
        ([5, 9], Err(refusal(23, 4))),
        ([7, 9], Err(refusal(23, 9))),
        ([5, 3], Err(refusal(19, 0))),
        ([5, 6], Err(refusal(19, 0))),
    ] {
        assert_eq!(judged(&shelf, pair, WORK), answer, "{pair:?}");
        assert_eq!(judged(&shelf, pair, WORK - 1), Err(refusal(14, 0)));
    }
    // Such routes don't keep put from its work.
    shelf.put(10, &by_value(&edition(""))).unwrap();
    assert_eq!(judged(&shelf, [7, 10], WORK), Ok(true));
    shelf.editions[0].number = 6;
    assert_eq!(judged(&shelf, [5, 9], WORK), Err(refusal(21, 1)));
}

//! Scripts of jobs in which a step reads what no step of its route writes: which
//! operations answer 23 then, and which don't look for it.

use crate::drive::compare_script;
use crate::seed::for_each_case;
use crate::tally::Tally;
use crate::unwritten::mistyped;
use crate::versions::of_01;
use reference::judge::WORK;
use reference::random::orders;
use reference::random::records::Facts;
use reference::script::writing::{
    bytes, convert, fill, hand_in, judge_editions, operation, put, read, read_by_01,
};
use reference::sheet::{self, Sheet};
use reference::shelf::{Edition, Shelf};

/// Run, slice, try, judge and compare over records, try over a sheet; put and judge.
const LOOK: [u32; 12] = [2, 3, 4, 5, 10, 12, 13, 14, 15, 21, 22, 25];

/// Read and write; up, down, and the way that the second line tells.
const PASS: [u32; 8] = [6, 8, 16, 18, 23, 26, 27, 28];

/// Its answer is the shelf alone.
const HAND_IN: u64 = 20;

/// More than a sheet has here.
const ROOM: usize = 20_500;

pub fn over_records(facts: &Facts, order: &[u8]) -> String {
    let mut script = operation(25, &[facts.text(false)]);
    for (more, text) in [(0, facts.text(false)), (10, facts.text(true))] {
        let mut add = |number: u64, last: &[String]| {
            script += &operation(number + more, &[&[text.clone()], last].concat());
        };
        add(2, &[]);
        add(3, &[]);
        add(4, &[bytes(order)]);
        add(5, &[fill(WORK, 9)]);
        add(8, &[fill(ROOM, 9)]);
    }
    script
}

fn over_sheet(sheet: &str, order: &[u8]) -> String {
    let (lower, sheet) = (of_01(sheet), sheet.as_bytes());
    let rooms = ["64"; 3].map(String::from);
    [
        read(sheet),
        operation(16, &[&[bytes(sheet)], &rooms[..]].concat()),
        operation(10, &[bytes(sheet), bytes(order)]),
        read_by_01(lower.as_bytes()),
        convert(26, lower.as_bytes(), fill(ROOM, 9)),
        convert(27, sheet, fill(ROOM, 9)),
        convert(28, sheet, fill(ROOM, 9)),
    ]
    .concat()
}

/// Each route put on the empty shelf, and the job judged from one that holds both.
fn over_shelf(facts: &Facts) -> String {
    let routes = [facts.old.by_value(), facts.new.by_value()];
    let puts = routes
        .each_ref()
        .map(|route| hand_in(&Shelf::empty()) + &put(7, route));
    let mut shelf = Shelf::empty();
    shelf.len = 2;
    for ((edition, route), number) in shelf.editions.iter_mut().zip(routes).zip([3, 5]) {
        *edition = Edition { number, route };
    }
    let judged = judge_editions([3, 5], &facts.done, fill(WORK, 9));
    puts.concat() + &hand_in(&shelf) + &judged
}

fn scripts(facts: &Sheet, order: &[u8]) -> [String; 3] {
    let records = Facts::of(facts);
    [
        over_records(&records, order),
        over_sheet(&sheet::text(facts), order),
        over_shelf(&records),
    ]
}

#[test]
fn mistyped_jobs() {
    let (mut refused, mut passed) = (Tally::default(), Tally::default());
    for_each_case("mistyped jobs", 500, &mut |dice| {
        let facts = mistyped(dice);
        let order = orders::order(&facts, dice);
        for script in scripts(&facts, &order) {
            for (operation, answer) in compare_script("mistyped", &script) {
                match (operation, answer[0]) {
                    (HAND_IN, _) => {}
                    (_, 23) => refused.add(operation as u32),
                    (_, 0) => passed.add(operation as u32),
                    _ => {}
                }
            }
        }
    });
    refused.finish("operations refused by 23", "none", 100, &LOOK);
    passed.finish("operations that pass", "none", 100, &PASS);
}

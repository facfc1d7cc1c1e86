//! What each operation answers, as numbers: those of a refusal are its number,
//! its second number and 0 in all else, and every lent slice as it then stands.

use crate::convert::Way;
use crate::fit;
use crate::judge::{self, Moved};
use crate::lookup;
use crate::net::{self, Marking};
use crate::print;
use crate::record::{mask, Record, RouteByValue, FIELDS};
use crate::refusal::Refusal;
use crate::sheet::{self, entries, Route, Sheet};
use crate::shelf::{Edition, Shelf};
use crate::slice;
use crate::version::Version;

/// Rows of a table, entries of an order, records of a route by value, done names.
const ROWS: usize = 64;
const VARIABLES: usize = 32;
/// What every number of a lent list is before a reading into it, save a record's
/// mark, which is 1.
const BEFORE: u32 = 7;

/// Number, second and so many others.
fn line(answer: Result<Vec<u64>, Refusal>, others: usize) -> Vec<u64> {
    match answer {
        Ok(numbers) => {
            assert_eq!(numbers.len(), others);
            [vec![0, 0], numbers].concat()
        }
        Err(refusal) => {
            let refused = vec![refusal.number.into(), refusal.second as u64];
            [refused, vec![0; others]].concat()
        }
    }
}

/// The numbers, and 0 in the unused entries.
fn padded(mut numbers: Vec<u64>, length: usize) -> Vec<u64> {
    assert!(numbers.len() <= length);
    numbers.resize(length, 0);
    numbers
}

/// A marking as a mask, place p at bit p.
fn places(marking: Marking) -> Vec<u64> {
    vec![mask(marking)]
}

/// Occurrences as a mask, occurrence k at bit k - 1.
fn bits<'a>(occurrences: impl IntoIterator<Item = &'a usize>) -> u64 {
    mask(occurrences.into_iter().map(|&o| o as u64 - 1))
}

/// A lent slice afterwards: its length, then runs, each a count and a number.
fn runs<T: PartialEq + Copy + Into<u64>>(slice: &[T]) -> Vec<u64> {
    let mut numbers = vec![slice.len() as u64];
    for run in slice.chunk_by(|one, next| one == next) {
        numbers.extend([run.len() as u64, run[0].into()]);
    }
    numbers
}

pub fn fire(tokens: u64, record: &Record) -> Vec<u64> {
    let marking = Marking::from_iter(entries(tokens));
    line(net::fire(&marking, &record.step()).map(places), 1)
}

pub fn run(facts: &Sheet) -> Vec<u64> {
    line(net::run(facts).map(places), 1)
}

pub fn slice(facts: &Sheet) -> Vec<u64> {
    let numbers = |slice: slice::Slice| {
        let rows: Vec<u64> = slice.table.iter().map(bits).collect();
        [vec![bits(&slice.kept)], padded(rows, ROWS)].concat()
    };
    line(slice::slice(facts).map(numbers), 1 + ROWS)
}

pub fn try_order(facts: &Sheet, order: &[u8]) -> Vec<u64> {
    line(fit::try_order(facts, order).map(places), 1)
}

pub fn try_sheet(bytes: &[u8], order: &[u8]) -> Vec<u64> {
    line(fit::try_sheet(bytes, order).map(places), 1)
}

pub fn judge(facts: &Sheet, mut work: Vec<u8>) -> Vec<u64> {
    judged(judge::judge(facts, &mut work), &work)
}

/// Judge's answer, and the work slice after it.
fn judged(answer: Result<Moved, Refusal>, work: &[u8]) -> Vec<u64> {
    let moved = answer.map(|moved| moved_numbers(&moved));
    let others = 3 + ROWS + 1 + ROWS + VARIABLES;
    [line(moved, others), runs(work)].concat()
}

/// Kept, dropped, the order's length and entries, the marking, for each
/// occurrence the kept ones that it comes after, for each variable its writer.
fn moved_numbers(moved: &Moved) -> Vec<u64> {
    let order: Vec<u64> = moved.order.iter().map(|&o| o as u64).collect();
    [
        vec![bits(&moved.kept), moved.dropped as u64, order.len() as u64],
        padded(order, ROWS),
        places(moved.marking.clone()),
        after_rows(moved),
        writers(moved),
    ]
    .concat()
}

/// Row i is of occurrence i + 1: 0 where it isn't kept.
fn after_rows(moved: &Moved) -> Vec<u64> {
    let mut rows = vec![0; ROWS];
    for (occurrence, others) in &moved.after {
        rows[occurrence - 1] = bits(others);
    }
    rows
}

/// For each variable of the new route its last writer; 0 for a blank one and
/// for those of no step.
fn writers(moved: &Moved) -> Vec<u64> {
    let mut writers = vec![0; VARIABLES];
    for (variable, writer) in &moved.values {
        writers[*variable as usize] = *writer as u64;
    }
    writers
}

pub fn read(bytes: &[u8], version: &Version) -> Vec<u64> {
    let numbers = |facts: Sheet| {
        let done = vec![facts.done.len() as u64];
        let (old, new) = (route_numbers(&facts.old), route_numbers(&facts.new));
        [old, new, done, padded(facts.done, ROWS)].concat()
    };
    let route = 3 + FIELDS * ROWS;
    let answer = sheet::read_by(bytes, version).map(numbers);
    line(answer, 2 * route + 1 + ROWS)
}

/// A route by value: places, start, len and its records, those past the last blank.
fn route_numbers(route: &Route) -> Vec<u64> {
    let numbers = |record: &Record| record.numbers();
    let records: Vec<u64> = records(route).iter().flat_map(numbers).collect();
    [head_numbers(route), padded(records, FIELDS * ROWS)].concat()
}

/// Places, the start as a mask, and len.
fn head_numbers(route: &Route) -> Vec<u64> {
    let start = mask(route.start.iter().copied());
    vec![route.places, start, route.steps.len() as u64]
}

fn records(route: &Route) -> Vec<Record> {
    route.steps.iter().map(Record::of).collect()
}

pub fn read_into(bytes: &[u8], room: [usize; 3]) -> Vec<u64> {
    let seven = Record {
        name: BEFORE,
        ins: BEFORE.into(),
        outs: BEFORE.into(),
        reads: BEFORE,
        writes: BEFORE,
        cloth: true,
    };
    let (mut old, mut new) = (vec![seven; room[0]], vec![seven; room[1]]);
    let mut done = vec![u64::from(BEFORE); room[2]];
    let answer = sheet::read_into(bytes, room);
    if let Ok(facts) = &answer {
        old[..facts.old.steps.len()].copy_from_slice(&records(&facts.old));
        new[..facts.new.steps.len()].copy_from_slice(&records(&facts.new));
        done[..facts.done.len()].copy_from_slice(&facts.done);
    }
    let heads = |facts: Sheet| {
        let done = vec![facts.done.len() as u64];
        [head_numbers(&facts.old), head_numbers(&facts.new), done].concat()
    };
    let lists = [lent_records(&old), lent_records(&new), runs(&done)];
    [line(answer.map(heads), 7), lists.concat()].concat()
}

/// A lent list of records afterwards: its length, then each record.
fn lent_records(records: &[Record]) -> Vec<u64> {
    let mut numbers = vec![records.len() as u64];
    numbers.extend(records.iter().flat_map(Record::numbers));
    numbers
}

pub fn job_part(bytes: &[u8]) -> Vec<u64> {
    runs(sheet::job_part(bytes).1)
}

pub fn write(facts: &Sheet, mut out: Vec<u8>) -> Vec<u64> {
    let written = sheet::write(facts, &mut out).map(|length| vec![length as u64]);
    [line(written, 1), runs(&out)].concat()
}

pub fn print(bytes: &[u8], mut work: Vec<u8>, mut out: Vec<u8>) -> Vec<u64> {
    let written = print::print(bytes, &mut work, &mut out).map(|length| vec![length as u64]);
    [line(written, 1), runs(&work), runs(&out)].concat()
}

/// A sheet that goes this way between editions.
pub fn convert(way: Way, bytes: &[u8], mut out: Vec<u8>) -> Vec<u64> {
    let written = way(bytes, &mut out).map(|length| vec![length as u64]);
    [line(written, 1), runs(&out)].concat()
}

/// A shelf: `len`, and each of its 8 entries.
pub fn shelf(shelf: &Shelf) -> Vec<u64> {
    let entries = shelf.editions.iter().flat_map(edition);
    [vec![shelf.len], entries.collect()].concat()
}

/// An edition: its number, its route's places, start and `len`, and the records'
/// numbers as a lent slice of them is shown.
fn edition(edition: &Edition) -> Vec<u64> {
    let RouteByValue {
        places,
        start,
        len,
        records,
    } = &edition.route;
    let numbers: Vec<u64> = records.iter().flat_map(Record::numbers).collect();
    let head = vec![edition.number.into(), (*places).into(), *start, *len];
    [head, runs(&numbers)].concat()
}

/// The answer of putting an edition, and the shelf that is handed back.
pub fn put(on: &mut Shelf, number: u32, route: &RouteByValue) -> Vec<u64> {
    let answer = on.put(number, route).map(|()| vec![]);
    [line(answer, 0), shelf(on)].concat()
}

pub fn judge_editions(
    shelf: &Shelf,
    [edition, target]: [u32; 2],
    done: &[u64],
    mut work: Vec<u8>,
) -> Vec<u64> {
    judged(shelf.judge(edition, target, done, &mut work), &work)
}

/// Where the name stands, counted from 1, or 0; how many names were compared; the
/// next beginning.
pub fn find(among: &[u64], from: u64, name: u32) -> Vec<u64> {
    let found = lookup::find(among, from, name.into());
    let position = found.at.map_or(0, |at| at as u64 + 1);
    vec![position, found.compared as u64, found.next]
}

/// The run's total and the match's.
pub fn comparisons(facts: &Sheet) -> Vec<u64> {
    let totals = lookup::comparisons(facts);
    let numbers = |(run, matched)| vec![run as u64, matched as u64];
    line(totals.map(numbers), 2)
}

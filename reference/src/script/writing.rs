//! Writing a script's operations and their arguments.

use crate::record::{Record, RouteByValue};
use crate::shelf::{Edition, Shelf};

/// Numbers with one space between.
fn words<T: ToString>(numbers: impl IntoIterator<Item = T>) -> String {
    let words: Vec<String> = numbers.into_iter().map(|n| n.to_string()).collect();
    words.join(" ")
}

/// A count, and the numbers after it.
fn counted<T: ToString>(count: usize, numbers: impl IntoIterator<Item = T>) -> String {
    format!("{count} {}", words(numbers)).trim_end().to_string()
}

/// An operation: its number and its arguments, as a line.
pub fn operation(number: u64, arguments: &[String]) -> String {
    format!("{number} {}\n", arguments.join(" "))
}

/// STEP.
pub fn record(record: &Record) -> String {
    words(record.numbers())
}

/// ROUTE: a route by value, with any start mask and `len`.
pub fn by_value(places: u32, start: u64, len: u64, records: &[Record]) -> String {
    format!("{places} {start} {len} {}", counted_records(records))
}

/// ROUTE, without the blank records at its end.
pub fn route(route: &RouteByValue) -> String {
    let given = without_blank_end(&route.records, &Record::default());
    by_value(route.places, route.start, route.len, given)
}

/// SHELF, without the blank editions at its end.
pub fn shelf(shelf: &Shelf) -> String {
    let given = without_blank_end(&shelf.editions, &Edition::blank());
    let edition = |edition: &Edition| format!("{} {}", edition.number, route(&edition.route));
    let editions = counted(given.len(), given.iter().map(edition));
    format!("{} {editions}", shelf.len)
}

/// The entries up to the last that isn't blank.
fn without_blank_end<'a, T: PartialEq>(entries: &'a [T], blank: &T) -> &'a [T] {
    let last = entries.iter().rposition(|entry| entry != blank);
    &entries[..last.map_or(0, |at| at + 1)]
}

/// LIST: a lent list, with any start mask.
pub fn lent(places: u32, start: u64, records: &[Record]) -> String {
    format!("{places} {start} {}", counted_records(records))
}

fn counted_records(records: &[Record]) -> String {
    counted(records.len(), records.iter().flat_map(Record::numbers))
}

/// NAMES.
pub fn names(names: &[u64]) -> String {
    counted(names.len(), names)
}

/// BYTES.
pub fn bytes(bytes: &[u8]) -> String {
    counted(bytes.len(), bytes)
}

/// FILL: so many bytes, all the same.
pub fn fill(length: usize, byte: u8) -> String {
    format!("{length} {byte}")
}

/// Operation 6: a sheet is read by the present version.
pub fn read(sheet: &[u8]) -> String {
    operation(6, &[bytes(sheet)])
}

/// Operation 23: a sheet is read by 01's version.
pub fn read_by_01(sheet: &[u8]) -> String {
    operation(23, &[bytes(sheet)])
}

/// Operation 26, 27 or 28: a sheet goes up, down, or the way that it is to go, with
/// this out slice.
pub fn convert(number: u64, sheet: &[u8], out: String) -> String {
    operation(number, &[bytes(sheet), out])
}

/// Operation 20: a shelf is handed in.
pub fn hand_in(in_hand: &Shelf) -> String {
    operation(20, &[shelf(in_hand)])
}

/// Operation 21: an edition is put on the shelf in hand.
pub fn put(number: u32, of: &RouteByValue) -> String {
    operation(21, &[number.to_string(), route(of)])
}

/// Operation 22: a job of an edition is judged against a target.
pub fn judge_editions([edition, target]: [u32; 2], done: &[u64], work: String) -> String {
    operation(22, &[words([edition, target]), names(done), work])
}

/// Operation 24: a name is found among others, from a beginning.
pub fn find(among: &[u64], from: u64, name: u64) -> String {
    operation(24, &[names(among), words([from, name])])
}

/// Operation 25: how many names are compared for a job, its routes by value.
pub fn comparisons(facts: String) -> String {
    operation(25, &[facts])
}

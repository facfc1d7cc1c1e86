//! The arguments of operations: records, routes, shelves, names, bytes.

use super::numbers::Numbers;
use crate::lines::MOST_STEPS;
use crate::record::{Record, RouteByValue};
use crate::sheet::{entries, Route};
use crate::shelf::{Edition, Shelf, MOST_EDITIONS};

/// The most records that a route by value holds.
pub const MOST_BY_VALUE: u64 = MOST_STEPS as u64;
/// The most records or names in a lent list.
pub const MOST_LENT: u64 = 100;
/// The most bytes in a lent slice.
pub const MOST_SLICE: u64 = 21_000;

/// A number below 2^32.
pub fn word(script: &mut Numbers) -> Option<u32> {
    script.any()?.try_into().ok()
}

/// A number below 256.
fn byte(script: &mut Numbers) -> Option<u8> {
    script.any()?.try_into().ok()
}

/// A count, at most so much, and so many entries.
fn counted<T>(
    script: &mut Numbers,
    most: u64,
    one: fn(&mut Numbers) -> Option<T>,
) -> Option<Vec<T>> {
    let count = script.most(most)?;
    (0..count).map(|_| one(script)).collect()
}

/// STEP: a step record.
pub fn record(script: &mut Numbers) -> Option<Record> {
    Some(Record {
        name: word(script)?,
        ins: script.any()?,
        outs: script.any()?,
        reads: word(script)?,
        writes: word(script)?,
        cloth: script.most(1)? == 1,
    })
}

/// LIST or ROUTE: a lent list of records, or a route by value.
pub fn route(script: &mut Numbers, lent: bool) -> Option<Route> {
    if !lent {
        return Some(by_value(script)?.route());
    }
    let (places, start) = (word(script)?.into(), entries(script.any()?));
    let records = counted(script, MOST_LENT, record)?;
    let steps = records.iter().map(Record::step).collect();
    Some(Route {
        places,
        start,
        steps,
    })
}

/// ROUTE: a route by value.
pub fn by_value(script: &mut Numbers) -> Option<RouteByValue> {
    let (places, start, len) = (word(script)?, script.any()?, script.any()?);
    let records = counted(script, MOST_BY_VALUE, record)?;
    Some(RouteByValue::of(places, start, len, &records))
}

/// SHELF: its `len` and its editions, those past the ones given blank.
pub fn shelf(script: &mut Numbers) -> Option<Shelf> {
    let mut shelf = Shelf::empty();
    shelf.len = script.any()?;
    let given = counted(script, MOST_EDITIONS as u64, edition)?;
    shelf.editions[..given.len()].copy_from_slice(&given);
    Some(shelf)
}

fn edition(script: &mut Numbers) -> Option<Edition> {
    Some(Edition {
        number: word(script)?,
        route: by_value(script)?,
    })
}

/// NAMES: a lent list of names.
pub fn names(script: &mut Numbers) -> Option<Vec<u64>> {
    counted(script, MOST_LENT, |script| word(script).map(u64::from))
}

/// BYTES: a lent slice of bytes.
pub fn bytes(script: &mut Numbers) -> Option<Vec<u8>> {
    counted(script, MOST_SLICE, byte)
}

/// FILL: a lent slice of bytes, all the same.
pub fn fill(script: &mut Numbers) -> Option<Vec<u8>> {
    let length = script.most(MOST_SLICE)?;
    Some(vec![byte(script)?; length as usize])
}

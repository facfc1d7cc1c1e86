//! Records of a job, right ones and ones that are wrong at every limit.

use super::dice::Dice;
use super::names;
use crate::record::{mask, Record, RouteByValue};
use crate::script::writing;
use crate::sheet::{entries, Route, Sheet};

/// A route as records: by value it has `len`, as a lent list it has all of them.
#[derive(Clone, Debug)]
pub struct Records {
    pub places: u32,
    pub start: u64,
    pub len: u64,
    pub list: Vec<Record>,
}

/// The records of both routes, and the done list.
#[derive(Clone, Debug)]
pub struct Facts {
    pub old: Records,
    pub new: Records,
    pub done: Vec<u64>,
}

impl Records {
    pub fn of(route: &Route) -> Records {
        Records {
            places: route.places.try_into().expect("places in range"),
            start: mask(route.start.iter().copied()),
            len: route.steps.len() as u64,
            list: route.steps.iter().map(Record::of).collect(),
        }
    }

    /// The route by value, which holds the first 64 of the records.
    pub fn by_value(&self) -> RouteByValue {
        let held = self.list.len().min(64);
        RouteByValue::of(self.places, self.start, self.len, &self.list[..held])
    }

    /// The route of all the records.
    fn route(&self) -> Route {
        Route {
            places: self.places.into(),
            start: entries(self.start),
            steps: self.list.iter().map(Record::step).collect(),
        }
    }

    /// Makes one thing wrong, or puts it at its limit.
    pub fn spoil(&mut self, dice: &mut Dice) {
        match dice.below(17) {
            0..=1 => self.places = some_places(self.places, dice),
            14..=16 => self.start = some_start(self.start, self.places, dice),
            2..=3 => lengthen(self, dice),
            4 => {
                self.list.clear();
                self.len = 0;
            }
            5..=6 => self.len = some_len(self.list.len() as u64, dice),
            7 => add_past_len(self, dice),
            _ => spoil_record(self, dice),
        }
    }

    fn text(&self, lent: bool) -> String {
        if lent {
            writing::lent(self.places, self.start, &self.list)
        } else {
            let held = self.list.len().min(64);
            writing::by_value(self.places, self.start, self.len, &self.list[..held])
        }
    }
}

impl Facts {
    pub fn of(job: &Sheet) -> Facts {
        Facts {
            old: Records::of(&job.old),
            new: Records::of(&job.new),
            done: job.done.clone(),
        }
    }

    /// The three arguments of an operation.
    pub fn text(&self, lent: bool) -> String {
        let done = writing::names(&self.done);
        [self.old.text(lent), self.new.text(lent), done].join(" ")
    }

    /// The facts of a sheet, in range or not.
    pub fn sheet(&self) -> Sheet {
        Sheet {
            old: self.old.route(),
            new: self.new.route(),
            done: self.done.clone(),
        }
    }

    /// Makes one thing wrong, or puts it at its limit.
    pub fn spoil(&mut self, dice: &mut Dice) {
        match dice.below(9) {
            0..=3 => self.old.spoil(dice),
            4..=7 => self.new.spoil(dice),
            _ => spoil_done(&mut self.done, dice),
        }
    }
}

pub(super) fn any<T: Copy>(of: &[T], dice: &mut Dice) -> T {
    of[dice.below(of.len())]
}

/// A place count at or past its limits, or one off.
fn some_places(places: u32, dice: &mut Dice) -> u32 {
    let less = places.saturating_sub(1);
    let more = places.saturating_add(1);
    let counts = [0, 1, 63, 64, 65, 66, 128, u32::MAX, less, more, less];
    any(&counts, dice)
}

/// Copies of the last record under fresh names, up to 64, 65 or more.
fn lengthen(route: &mut Records, dice: &mut Dice) {
    let Some(&last) = route.list.last() else {
        return;
    };
    let length = any(&[63, 64, 64, 65, 65, 66, 100], dice);
    let mut name = any(&[65_535, 65_540, u32::MAX], dice);
    while route.list.len() < length {
        while route.list.iter().any(|record| record.name == name) {
            name -= 1;
        }
        route.list.push(Record { name, ..last });
    }
    route.list.truncate(100);
    route.len = route.list.len() as u64;
    if dice.chance(25) {
        spoil_record(route, dice);
    }
}

/// A `len` that isn't the number of records given.
fn some_len(records: u64, dice: &mut Dice) -> u64 {
    let more = records + (1 << 32);
    let less = records.saturating_sub(1);
    let lens = [0, 1, less, records + 1, 64, 65, 66, 256, more, u64::MAX];
    any(&lens, dice)
}

/// Records that stand past `len` and don't count in a route by value; some of them write
/// all that is read.
pub(super) fn add_past_len(route: &mut Records, dice: &mut Dice) {
    let read = route.list.iter().fold(0, |mask, one| mask | one.reads);
    for _ in 0..dice.from_to(1, 3) {
        if route.list.is_empty() || route.list.len() == 100 {
            return;
        }
        let mut record = any(&route.list, dice);
        record.name = any(&[record.name, 0, 7, 65_536, u32::MAX], dice);
        record.writes = any(&[record.writes, read], dice);
        route.list.push(record);
    }
}

pub(super) fn spoil_record(route: &mut Records, dice: &mut Dice) {
    if route.list.is_empty() {
        return;
    }
    let at = dice.below(route.list.len());
    let other = any(&route.list, dice);
    let record = &mut route.list[at];
    match dice.below(13) {
        0..=1 => {
            let name = some_name(other.name.into(), dice);
            record.name = name.try_into().expect("a name of 32 bits");
        }
        2..=3 => record.name = other.name,
        4..=5 => record.ins = some_mask(record.ins, route.places, dice),
        6..=7 => record.outs = some_mask(record.outs, route.places, dice),
        8 => record.reads = some_variables(record.reads, dice),
        9 => record.writes = some_variables(record.writes, dice),
        10 => *record = Record::default(),
        11 => record.cloth = !record.cloth,
        _ => {
            record.name = other.name;
            record.outs = 0;
        }
    }
}

/// A start: none, all, other places, or with places not below N.
fn some_start(start: u64, places: u32, dice: &mut Dice) -> u64 {
    let at_places = 1_u64.checked_shl(places).unwrap_or(0);
    let below = at_places.wrapping_sub(1);
    let masks = [
        0,
        0,
        below,
        start ^ below,
        start | at_places,
        start | at_places,
        at_places,
        at_places,
        1 << 63,
        start | 1 << 63,
        start | 1 << 32,
        start << 1,
        u64::MAX,
        u64::MAX,
    ];
    any(&masks, dice)
}

/// A mask of places: empty, of 8 or 9, or with places not below N.
fn some_mask(mask: u64, places: u32, dice: &mut Dice) -> u64 {
    let at_places = 1_u64.checked_shl(places).unwrap_or(0);
    let below = at_places.wrapping_sub(1);
    let high = below >> 8 << 8;
    let masks = [
        0,
        mask | at_places,
        at_places,
        mask | 1 << 63,
        0xff,
        0x1ff,
        high,
        below,
        u64::MAX,
        1 << 32,
        mask | 1,
    ];
    any(&masks, dice)
}

/// A mask of variables: any, of 8 or 9.
fn some_variables(mask: u32, dice: &mut Dice) -> u32 {
    let masks = [0, 0xff, 0x1ff, 0xff00_0000, 0xff80_0000, u32::MAX];
    any(&[&masks[..], &[mask | 1 << 31, mask ^ 1]].concat(), dice)
}

/// 0, a name at its limits, or one that may end as this one does; below 2^32.
fn some_name(name: u64, dice: &mut Dice) -> u64 {
    let other = names::other(name, dice);
    let most = u32::MAX.into();
    any(&[0, 0, 0, 1, 65_535, 65_536, most, other, other], dice)
}

/// A name by `some_name`, or 63 and more done.
pub(super) fn spoil_done(done: &mut Vec<u64>, dice: &mut Dice) {
    let name = some_name(done.last().copied().unwrap_or(1), dice);
    if done.is_empty() || dice.chance(50) {
        let length = any(&[63, 64, 65, 66, 100], dice);
        let name = done.last().copied().unwrap_or(name);
        done.resize(length, name);
    }
    if dice.chance(60) {
        let at = dice.below(done.len());
        done[at] = name;
    }
}

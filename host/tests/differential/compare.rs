//! One call of the engine and one of the second program, compared.

use crate::guarded::Guarded;
use crate::seed::seed;
use host::{Printed, Tried};
use reference::convert;
use reference::fit::try_sheet;
use reference::net::Marking;
use reference::print;
use reference::random::dice::Dice;
use std::fmt::Debug;

/// Prints with slices that have these contents. Compares the answer, the work
/// slice, the out slice and all that stands around them; gives the out slice.
pub fn compare_print(sheet: &[u8], work: &[u8], out: &[u8], dice: &mut Dice) -> (Printed, Vec<u8>) {
    let (mut work_after, mut out_after) = (work.to_vec(), out.to_vec());
    let expected = match print::print(sheet, &mut work_after, &mut out_after) {
        Ok(written) => printed(0, 0, written),
        Err(refusal) => printed(refusal.number, refusal.second, 0),
    };
    let lent = Guarded::new(sheet, dice);
    let (mut work, mut out) = (Guarded::new(work, dice), Guarded::new(out, dice));
    let buffers_after = [
        lent.with(sheet),
        work.with(&work_after),
        out.with(&out_after),
    ];
    let answer = host::print(lent.slice(), work.slice_mut(), out.slice_mut());
    let [engine, second_program] = [out.slice(), &out_after].map(String::from_utf8_lossy);
    same(sheet, &(answer, engine), &(expected, second_program));
    same_buffer(sheet, "sheet", lent.buffer(), &buffers_after[0]);
    same_buffer(sheet, "work", work.buffer(), &buffers_after[1]);
    same_buffer(sheet, "out", out.buffer(), &buffers_after[2]);
    (answer, out_after)
}

/// A way between 01's layout and the present one: the engine's and the second program's.
#[derive(Clone, Copy)]
pub struct Way {
    pub engine: fn(&[u8], &mut [u8]) -> Printed,
    pub second_program: convert::Way,
}

/// Takes a sheet that way with an out slice that has these contents. Compares the answer,
/// the out slice and all that stands around them; gives the answer and the out slice.
pub fn compare_way(way: Way, sheet: &[u8], out: &[u8], dice: &mut Dice) -> (Printed, Vec<u8>) {
    let mut out_after = out.to_vec();
    let expected = match (way.second_program)(sheet, &mut out_after) {
        Ok(written) => printed(0, 0, written),
        Err(refusal) => printed(refusal.number, refusal.second, 0),
    };
    let (lent, mut out) = (Guarded::new(sheet, dice), Guarded::new(out, dice));
    let buffers_after = [lent.with(sheet), out.with(&out_after)];
    let answer = (way.engine)(lent.slice(), out.slice_mut());
    same(sheet, &answer, &expected);
    same_buffer(sheet, "sheet", lent.buffer(), &buffers_after[0]);
    same_buffer(sheet, "out", out.buffer(), &buffers_after[1]);
    (answer, out_after)
}

/// Tries an order. Compares the answer and all that was lent; gives the answer.
pub fn compare_try(sheet: &[u8], order: &[u8], dice: &mut Dice) -> Tried {
    let expected = expected_try(sheet, order);
    let (lent, list) = (Guarded::new(sheet, dice), Guarded::new(order, dice));
    let buffers_after = [lent.with(sheet), list.with(order)];
    let answer = host::try_order(lent.slice(), list.slice());
    same(sheet, &(order, answer), &(order, expected));
    same_buffer(sheet, "sheet", lent.buffer(), &buffers_after[0]);
    same_buffer(sheet, "order", list.buffer(), &buffers_after[1]);
    answer
}

/// What the second program answers, the marking too.
pub fn expected_try(sheet: &[u8], order: &[u8]) -> Tried {
    match try_sheet(sheet, order) {
        Ok(marking) => tried(0, 0, mask(&marking)),
        Err(refusal) => tried(refusal.number, refusal.second, 0),
    }
}

/// Panics with the seed, the sheet and both answers if they differ.
#[track_caller]
pub fn same<T: Debug + PartialEq>(sheet: &[u8], engine: &T, second_program: &T) {
    if engine != second_program {
        let (seed, text) = (seed(), String::from_utf8_lossy(sheet));
        panic!("SEED={seed}, sheet:\n{text}\nengine:         {engine:?}\nsecond program: {second_program:?}");
    }
}

/// Panics with the first byte that differs, if one does.
#[track_caller]
fn same_buffer(sheet: &[u8], name: &str, now: &[u8], expected: &[u8]) {
    let mut pairs = now.iter().zip(expected).enumerate();
    if let Some((at, (byte, other))) = pairs.find(|(_, (byte, other))| byte != other) {
        same(sheet, &(name, at, byte), &(name, at, other));
    }
}

fn printed(number: u32, second: usize, written: usize) -> Printed {
    Printed {
        number,
        second: second as u64,
        written: written as u64,
    }
}

fn tried(number: u32, second: usize, marking: u64) -> Tried {
    Tried {
        number,
        second: second as u64,
        marking,
    }
}

/// The marking as a mask, place p at bit p.
fn mask(marking: &Marking) -> u64 {
    marking.iter().fold(0, |mask, place| mask | 1 << place)
}

//! A sheet of 01's layout by the present one, and back: read, checked and written.

use crate::pen::{Counter, Pen, Writer};
use crate::reader::Sheet;
use crate::route::{Route, Step};
use crate::version::{Present, Scope, Version};
use crate::Refusal;

/// No sheet that reads is longer.
const LONGEST: usize = 20_500;

/// A sheet of 01's layout by the present one: the number, the second number and the bytes
/// written.
pub fn up(bytes: &[u8], out: &mut [u8]) -> (u32, u64, u64) {
    answered(raised(bytes).and_then(|sheet| write::<Present>(&sheet, out)))
}

/// A sheet of the present layout by 01's.
pub fn down(bytes: &[u8], out: &mut [u8]) -> (u32, u64, u64) {
    answered(lowered(bytes).and_then(|sheet| write::<Scope>(&sheet, out)))
}

fn answered(written: Result<u64, Refusal>) -> (u32, u64, u64) {
    match written {
        Ok(written) => (0, 0, written),
        Err((number, second)) => (number, second, 0),
    }
}

/// The facts with the implied starts, by the rows to 7.
fn raised(bytes: &[u8]) -> Result<Sheet, Refusal> {
    let mut sheet = Sheet::new();
    sheet.read_by::<Scope>(bytes)?;
    sheet.old.start = sheet.old.implied();
    sheet.new.start = sheet.new.implied();
    let new_line = 2 + sheet.old.len as u64;
    sheet.old.check_at(1, 1)?;
    sheet.new.check_at(new_line, new_line)?;
    Ok(sheet)
}

/// The facts by the rows to 7, and by 22.
fn lowered(bytes: &[u8]) -> Result<Sheet, Refusal> {
    let mut sheet = Sheet::new();
    sheet.read_by::<Present>(bytes)?;
    sheet.old.check(1)?;
    sheet.new.check(sheet.new_line())?;
    check_said(&sheet.old, 1)?;
    check_said(&sheet.new, sheet.new_line())?;
    let mut done = sheet.done[..sheet.done_len].iter();
    match done.position(|&name| !Scope::is_name(name.into())) {
        Some(index) => Err((22, sheet.done_line(index))),
        None => Ok(sheet),
    }
}

/// 22 of a route with its head at this line.
fn check_said(route: &Route, head: u64) -> Result<(), Refusal> {
    if route.start != route.implied() {
        return Err((22, head + 1));
    }
    let beyond = |step: &Step| step.cloth || !Scope::is_name(step.name.into());
    match route.all().iter().position(beyond) {
        Some(index) => Err((22, head + 2 + index as u64)),
        None => Ok(()),
    }
}

/// Row 15, else the text.
fn write<V: Version>(sheet: &Sheet, out: &mut [u8]) -> Result<u64, Refusal> {
    if out.len() < LONGEST {
        let mut counter = Counter(0);
        text::<V>(sheet, &mut counter);
        if out.len() < counter.0 {
            return Err((15, counter.0 as u64));
        }
    }
    let mut writer = Writer { out, at: 0 };
    text::<V>(sheet, &mut writer);
    Ok(writer.at as u64)
}

fn text<V: Version>(sheet: &Sheet, pen: &mut impl Pen) {
    pen.word(b"(old");
    route::<V>(&sheet.old, pen);
    pen.word(b"(new");
    route::<V>(&sheet.new, pen);
    pen.word(b"(job)\n");
    for &name in &sheet.done[..sheet.done_len] {
        pen.word(b"(done");
        pen.number(name.into());
        pen.word(b")\n");
    }
}

/// A head from behind its word, the start line, the steps.
fn route<V: Version>(route: &Route, pen: &mut impl Pen) {
    pen.number(route.places);
    if V::START {
        pen.word(b")\n(start");
        entries(route.start, pen);
    }
    pen.word(b")\n");
    for step in route.all() {
        self::step(step, pen);
    }
}

/// A step line; one that is written has no mark.
fn step(step: &Step, pen: &mut impl Pen) {
    pen.word(b"(step");
    pen.number(step.name.into());
    pen.word(b" (in");
    entries(step.ins, pen);
    pen.word(b") (out");
    entries(step.outs, pen);
    pen.word(b") (read");
    entries(step.reads.into(), pen);
    pen.word(b") (write");
    entries(step.writes.into(), pen);
    pen.word(b"))\n");
}

fn entries(mask: u64, pen: &mut impl Pen) {
    let mut left = mask;
    while left != 0 {
        pen.entry(left.trailing_zeros() as u8);
        left &= left - 1;
    }
}

//! Try: an order that somebody hands in.

use crate::job::{self, Uses, Way};
use crate::precedence::Precedence;
use crate::reader::Sheet;
use crate::route::MOST;
use crate::Refusal;

/// Tries an order of occurrence numbers; gives the number, the second number
/// and the marking.
pub fn try_order(sheet: &[u8], order: &[u8]) -> (u32, u64, u64) {
    match tried(sheet, order) {
        Ok(marking) => (0, 0, marking),
        Err((number, second)) => (number, second, 0),
    }
}

/// The marking of an order that is accepted, or what refuses it.
fn tried(bytes: &[u8], order: &[u8]) -> Result<u64, Refusal> {
    let mut sheet = Sheet::new();
    sheet.read(bytes)?;
    let mut uses = Uses::new();
    let kept = match job::way(&sheet, &mut uses)? {
        Way::Straight(end) if in_turn(order, uses.len) => return Ok(end),
        Way::Straight(_) => job::kept(&sheet, &uses),
        Way::Search(kept) => kept,
    };
    check_list(order, kept)?;
    fire_list(&sheet, &uses, kept, order)
}

/// The order is 1, 2, .. to the last.
fn in_turn(order: &[u8], len: usize) -> bool {
    order.len() == len
        && order
            .iter()
            .zip(1..)
            .all(|(&entry, number)| entry == number)
}

/// Row 16 over the whole list.
fn check_list(order: &[u8], kept: u64) -> Result<(), Refusal> {
    let mut seen = 0;
    for (entry, at) in order.iter().zip(1..) {
        let position = usize::from(*entry).wrapping_sub(1);
        if position >= MOST || (kept & !seen) >> position & 1 == 0 {
            return Err((16, at));
        }
        seen |= 1 << position;
    }
    if seen != kept {
        return Err((16, order.len() as u64 + 1));
    }
    Ok(())
}

/// Rows 17 and 18 for each entry. Every kept occurrence is there once.
fn fire_list(sheet: &Sheet, uses: &Uses, kept: u64, order: &[u8]) -> Result<u64, Refusal> {
    let precedence = Precedence::of(sheet, uses, kept);
    let (mut placed, mut marking) = (0, sheet.new.start);
    for (entry, at) in order.iter().zip(1..) {
        let position = usize::from(*entry) - 1;
        let index = (kept & ((1 << position) - 1)).count_ones();
        if precedence.rows[index as usize] & !placed != 0 {
            return Err((17, at));
        }
        let step = uses.step(sheet, position);
        match step.filter(|step| step.can_fire(marking)) {
            None => return Err((18, at)),
            Some(step) => marking ^= step.toggle(),
        }
        placed |= 1 << index;
    }
    Ok(marking)
}

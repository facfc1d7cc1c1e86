//! The lines of the listing.

use crate::moved::Moved;
use crate::pen::Pen;
use crate::precedence::members;
use crate::Refusal;

/// No listing is longer: 64 `after` lines of 65 entries, an order, a marking of
/// 64 places, 32 `value` lines, and `moved`. An entry has at most three bytes.
pub const LONGEST: usize = 64 * (8 + 65 * 3) + (8 + 64 * 3) + (10 + 64 * 3) + 32 * 14 + 31;

/// The listing of a job's answer.
pub fn list(answer: &Result<Moved, Refusal>, pen: &mut impl Pen) {
    match answer {
        Err((number, second)) => {
            pen.word(b"(refused");
            pen.entry(*number as u8);
            pen.number(*second);
            pen.word(b")\n");
        }
        Ok(moved) => {
            counts(moved, pen);
            after_lines(moved, pen);
            order(moved, pen);
            marking(moved.marking, pen);
            values(moved, pen);
        }
    }
}

fn counts(moved: &Moved, pen: &mut impl Pen) {
    let kept = moved.precedence.len;
    pen.word(b"(moved (kept");
    pen.entry(kept as u8);
    pen.word(b") (dropped");
    pen.entry((moved.done - kept) as u8);
    pen.word(b"))\n");
}

fn after_lines(moved: &Moved, pen: &mut impl Pen) {
    let precedence = &moved.precedence;
    for (index, &row) in precedence.rows[..precedence.len].iter().enumerate() {
        if row == 0 {
            continue;
        }
        pen.word(b"(after");
        pen.entry(precedence.at[index] + 1);
        let mut left = row;
        while left != 0 {
            pen.entry(precedence.at[left.trailing_zeros() as usize] + 1);
            left &= left - 1;
        }
        pen.word(b")\n");
    }
}

fn order(moved: &Moved, pen: &mut impl Pen) {
    pen.word(b"(order");
    for position in &moved.order[..moved.precedence.len] {
        pen.entry(position + 1);
    }
    pen.word(b")\n");
}

fn marking(marking: u64, pen: &mut impl Pen) {
    pen.word(b"(marking");
    let mut left = marking;
    while left != 0 {
        pen.entry(left.trailing_zeros() as u8);
        left &= left - 1;
    }
    pen.word(b")\n");
}

fn values(moved: &Moved, pen: &mut impl Pen) {
    for variable in members(moved.variables) {
        if let Some(writer) = moved.precedence.last_writer(variable) {
            pen.word(b"(value");
            pen.entry(variable as u8);
            pen.entry(writer + 1);
            pen.word(b")\n");
        }
    }
}

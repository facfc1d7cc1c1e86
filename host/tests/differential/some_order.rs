//! Orders for try.
//!
//! Fit ones are got in two ways: the order that the second program's judge
//! gives, and a walk that takes at each entry any of the kept that is left,
//! comes after none left and can fire; where it gets to the end, all kept
//! stand in a fit order, most often another than judge's.

use crate::guarded::random_bytes;
use reference::job::Job;
use reference::judge::{judge, WORK};
use reference::net;
use reference::random::dice::Dice;

/// An order that has something to do with the job.
pub fn some_order(job: &Job, dice: &mut Dice) -> Vec<u8> {
    let mut kept: Vec<usize> = job.kept.iter().copied().collect();
    let order = match dice.below(8) {
        0 | 1 => judges_order(job).unwrap_or(kept),
        2..=4 => walk(job, dice),
        5 => job.whole(),
        6 => kept,
        _ => {
            dice.shuffle(&mut kept);
            kept
        }
    };
    order.iter().map(|&occurrence| occurrence as u8).collect()
}

fn judges_order(job: &Job) -> Option<Vec<usize>> {
    let moved = judge(job.sheet, &mut [0; WORK]).ok()?;
    Some(moved.order)
}

/// A random fit order, or as far as the walk got, with the rest behind.
fn walk(job: &Job, dice: &mut Dice) -> Vec<usize> {
    let mut marking = net::start(&job.sheet.new);
    let mut left: Vec<usize> = job.kept.iter().copied().collect();
    let mut order = Vec::new();
    loop {
        let next = |&&one: &&usize| {
            let early = left.iter().any(|&other| job.comes_after(one, other));
            let step = job.new_step(one);
            !early && step.is_some_and(|step| net::can_fire(&marking, step))
        };
        let ready: Vec<usize> = left.iter().filter(next).copied().collect();
        if ready.is_empty() {
            return [order, left].concat();
        }
        let one = ready[dice.below(ready.len())];
        if let Some(Ok(after)) = job.new_step(one).map(|step| net::fire(&marking, step)) {
            marking = after;
        }
        left.retain(|&other| other != one);
        order.push(one);
    }
}

/// The order with an entry changed, repeated, swapped, left out or added.
pub fn spoil(mut order: Vec<u8>, dice: &mut Dice) -> Vec<u8> {
    let at = dice.below(order.len() + 1);
    let other = dice.below(order.len().max(1));
    let entry = [0, 1, 2, 3, 9, 16, 17, 63, 64, 65, 128, 255][dice.below(12)];
    match dice.below(6) {
        0 => order.insert(at, entry),
        1 if !order.is_empty() => order.insert(at, order[other]),
        2 => order.truncate(at),
        _ if at == order.len() => {}
        3 => order[at] = entry,
        4 => order.swap(at, other),
        _ => {
            order.remove(at);
        }
    }
    order
}

/// Orders that hardly look at the job: empty, too long, any bytes.
pub fn any_order(order: &[u8], dice: &mut Dice) -> Vec<u8> {
    match dice.below(4) {
        0 => Vec::new(),
        1 => order.repeat(dice.from_to(2, 40)),
        2 => [order, &random_bytes(dice.from_to(1, 300), dice)].concat(),
        _ => random_bytes(dice.below(70), dice),
    }
}

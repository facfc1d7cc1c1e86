//! Orders that somebody hands in: the kept in a fit order or nearly so, the
//! straight list, and lists that rows 16 to 18 refuse.

use super::dice::Dice;
use crate::job::Job;
use crate::judge::{judge, WORK};
use crate::net;
use crate::sheet::Sheet;

/// A list for the job, as bytes.
pub fn order(facts: &Sheet, dice: &mut Dice) -> Vec<u8> {
    let Ok(job) = Job::of(facts) else {
        return (0..dice.below(5)).map(|_| some_byte(dice)).collect();
    };
    let list = match dice.below(20) {
        0..=4 => judge(facts, &mut [0; WORK]).map_or(vec![], |moved| moved.order),
        5..=6 => job.whole(),
        7..=8 => job.kept.iter().copied().collect(),
        9..=10 => shuffled(&job, dice),
        11..=12 => too_early(&job, dice),
        _ => in_turn(&job, dice),
    };
    let mut bytes: Vec<u8> = list.iter().map(|&o| o as u8).collect();
    if dice.chance(30) {
        for _ in 0..dice.from_to(1, 2) {
            change(&mut bytes, dice);
        }
    }
    bytes
}

/// An occurrence number, or any byte.
fn some_byte(dice: &mut Dice) -> u8 {
    let bytes = [0, 1, 2, 3, 5, 16, 17, 63, 64, 65, 255];
    bytes[dice.below(bytes.len())]
}

fn shuffled(job: &Job, dice: &mut Dice) -> Vec<usize> {
    let mut list: Vec<usize> = job.kept.iter().copied().collect();
    dice.shuffle(&mut list);
    list
}

/// The kept, at each position any that comes after none of those left, and one
/// that can fire if there is one.
fn in_turn(job: &Job, dice: &mut Dice) -> Vec<usize> {
    let mut left = shuffled(job, dice);
    let mut list = Vec::new();
    let mut marking = net::start(&job.sheet.new);
    while !left.is_empty() {
        let free = |one: &usize| !left.iter().any(|&other| job.comes_after(*one, other));
        let next = |one: usize| net::fire(&marking, job.new_step(one)?).ok();
        let fires = left.iter().find(|one| free(one) && next(**one).is_some());
        let Some(&one) = fires.or(left.iter().find(|one| free(one))) else {
            break;
        };
        marking = next(one).unwrap_or(marking);
        left.retain(|&other| other != one);
        list.push(one);
    }
    list
}

/// The same, with one that comes after another put in its place.
fn too_early(job: &Job, dice: &mut Dice) -> Vec<usize> {
    let mut list = in_turn(job, dice);
    let pairs: Vec<(usize, usize)> = (0..list.len())
        .flat_map(|first| (first + 1..list.len()).map(move |later| (first, later)))
        .filter(|&(first, later)| job.comes_after(list[later], list[first]))
        .collect();
    if !pairs.is_empty() {
        let (first, later) = pairs[dice.below(pairs.len())];
        list.swap(first, later);
    }
    list
}

/// One entry added, changed, swapped with another or left out; at times very many added.
fn change(bytes: &mut Vec<u8>, dice: &mut Dice) {
    let at = dice.below(bytes.len() + 1);
    let byte = some_byte(dice);
    match dice.below(9) {
        0..=1 => bytes.insert(at, byte),
        2 if dice.chance(20) => bytes.resize(300, byte),
        _ if at == bytes.len() => {}
        2..=3 => bytes[at] = byte,
        4..=6 => {
            let other = dice.below(bytes.len());
            bytes.swap(at, other);
        }
        _ => {
            bytes.remove(at);
        }
    }
}

//! Names among others: lists of all lengths, beginnings in them and past them,
//! names that stand where it begins, above it, elsewhere, twice or nowhere.

use crate::lookup::positions;
use crate::random::dice::Dice;
use crate::random::names;
use crate::random::records::any;
use crate::script::writing;

/// No operation has more bytes: 100 names of ten digits, and a beginning of twenty.
pub const LONGEST: usize = 1_200;

pub(super) fn operation(dice: &mut Dice) -> String {
    let mut list = unique_names(dice);
    let from = beginning(list.len(), dice);
    let name = wanted(&list, from, dice);
    if list.len() > 1 && dice.chance(25) {
        double(&mut list, from, name, dice);
    }
    writing::find(&list, from, name)
}

/// No names, one, few, 64, or up to 100: all different, at times one of them 0.
pub fn unique_names(dice: &mut Dice) -> Vec<u64> {
    let count = match dice.below(20) {
        0 => 0,
        1..=2 => 1,
        3..=11 => dice.from_to(2, 9),
        12..=13 => dice.from_to(10, 63),
        14..=16 => 64,
        17 => any(&[65, 100], dice),
        _ => dice.from_to(65, 100),
    };
    let mut list = Vec::new();
    for _ in 0..count {
        list.push(names::fresh(&list, dice));
    }
    if count > 0 && dice.chance(10) {
        list[dice.below(count)] = 0;
    }
    list
}

/// A beginning in a list of so many names, or past its last: just past it, by less
/// than the list again, or far. Some of those far off end with the bits of one in it.
pub fn beginning(count: usize, dice: &mut Dice) -> u64 {
    let count = count as u64;
    let within = dice.roll() % count.max(1);
    let wrapped = any(&[1 << 8, 1 << 16, 1 << 32], dice) + within;
    let far = [1 << 63, u64::MAX, u64::MAX, u64::MAX - within, dice.roll()];
    match dice.below(20) {
        0..=2 => 0,
        3..=9 => within,
        10..=11 => count.saturating_sub(1),
        12..=13 => count,
        14..=15 => count + 1 + within,
        16..=17 => wrapped,
        _ => any(&far, dice),
    }
}

/// One of the names: where it begins, just above or below that, at the top, at the
/// last, or anywhere; or a name that is none of them.
fn wanted(list: &[u64], from: u64, dice: &mut Dice) -> u64 {
    if list.is_empty() || dice.chance(25) {
        return nowhere(list, dice);
    }
    let order = positions(list.len(), from);
    let last = list.len() - 1;
    let (begin, above, below) = (order[0], order[last], order[1.min(last)]);
    let anywhere = dice.below(list.len());
    list[any(&[begin, above, above, below, 0, last, anywhere], dice)]
}

/// A name that none of these is: many end with the bits of one, few are 0 or the
/// greatest.
fn nowhere(list: &[u64], dice: &mut Dice) -> u64 {
    names::not_taken(list, || match dice.below(20) {
        0..=1 => 0,
        2 => u32::MAX.into(),
        _ if list.is_empty() => names::any_name(dice),
        _ => names::other(any(list, dice), dice),
    })
}

/// Lets the name stand twice: above the beginning and from there on, or above it
/// alone, or anywhere.
fn double(list: &mut [u64], from: u64, name: u64, dice: &mut Dice) {
    let begin = positions(list.len(), from)[0];
    let (all, above, below) = (0..list.len(), 0..begin, begin..list.len());
    let sides = match dice.below(4) {
        0 if begin > 0 => [above.clone(), above],
        1..=2 if begin > 0 => [above, below],
        _ => [all.clone(), all],
    };
    for side in sides {
        list[dice.from_to(side.start, side.end - 1)] = name;
    }
}

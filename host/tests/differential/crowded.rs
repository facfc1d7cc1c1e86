//! Crowded sheets: about 64 steps in a route and about 64 done lines, with
//! faults on some lines, most often near the 65th.

use crate::compare::compare_try;
use crate::listings::compare_listing;
use crate::seed::for_each_case;
use crate::tally::Tally;
use reference::random::dice::Dice;
use reference::sheet::{self, Route, Sheet, Step};

/// Names that rise from one step to the next, to near 4,294,967,295 at most.
#[derive(Clone, Copy)]
struct Names {
    first: u64,
    rise: u64,
}

impl Names {
    /// With a rise of 256 or more all end with the same bits.
    fn some(dice: &mut Dice) -> Names {
        let rise = [1, 1, 256, 65_536][dice.below(4)];
        let first = [1, 1, 65_500, 4_294_967_295 - 66 * rise][dice.below(4)];
        Names { first, rise }
    }

    fn of(self, number: u64) -> u64 {
        self.first + self.rise * number
    }
}

/// The first step goes from place 0 to place 1; the others may be done there
/// again and again. Every fifth cuts cloth.
fn route(names: Names, dice: &mut Dice) -> Route {
    let count = [62, 63, 64, 64, 64, 65, 66, 67][dice.below(8)];
    let step = |number: u64| Step {
        name: names.of(number),
        ins: vec![number.min(1)],
        outs: vec![1],
        reads: vec![],
        writes: vec![number % 32],
        cloth: number % 5 == 4,
    };
    let mut steps: Vec<Step> = (0..count).map(step).collect();
    for _ in 0..[0, 0, 0, 1, 1, 2][dice.below(6)] {
        let at = near_the_end(steps.len(), dice);
        put_fault(&mut steps[at], names.of(1), dice);
    }
    Route {
        places: 2,
        start: start(dice),
        steps,
    }
}

/// Place 0, at times with a fault by row 2 or 3, empty, or such that the first step
/// can't fire.
fn start(dice: &mut Dice) -> Vec<u64> {
    let others: [&[u64]; 8] = [
        &[],
        &[1],
        &[0, 1],
        &[2],
        &[0, 2],
        &[0, 0],
        &[1, 0],
        &[0, 1, 0],
    ];
    let other = others[dice.below(others.len())];
    if dice.chance(6) { other } else { &[0] }.to_vec()
}

/// An index below the length, most often one of the last six.
fn near_the_end(length: usize, dice: &mut Dice) -> usize {
    if dice.chance(80) {
        length - 1 - dice.below(6)
    } else {
        dice.below(length)
    }
}

/// A fault by row 2, 3 or 5, at times more than one; the name is another step's.
fn put_fault(step: &mut Step, name: u64, dice: &mut Dice) {
    for _ in 0..dice.from_to(1, 2) {
        match dice.below(9) {
            0 => step.name = 0,
            1 => step.name |= 1 << 32,
            2 => step.ins = vec![1, 2],
            3 => step.writes = vec![32],
            4 => step.outs.clear(),
            5 => step.reads = (0..9).collect(),
            6 => step.reads = vec![3, 3],
            7 => step.writes = vec![5, 4],
            _ => step.name = name,
        }
    }
}

/// The first step and then any, at times with a strange name.
fn done(names: Names, dice: &mut Dice) -> Vec<u64> {
    let count = [60, 62, 63, 64, 64, 65, 66, 67][dice.below(8)];
    let mut done: Vec<u64> = (0..count)
        .map(|_| names.of(dice.from_to(1, 61) as u64))
        .collect();
    done[0] = names.of(0);
    for _ in 0..[0, 0, 0, 1, 2][dice.below(5)] {
        let at = near_the_end(count, dice);
        let alike = [16, 32].map(|bits| done[at] + (1 << bits));
        done[at] = [0, 4_294_967_295, 9_999_999_999, alike[0], alike[1]][dice.below(5)];
    }
    done
}

#[test]
fn crowded_sheets() {
    let mut tally = Tally::default();
    for_each_case("crowded", 5_000, &mut |dice| {
        let names = Names::some(dice);
        let (old, new) = (route(names, dice), route(names, dice));
        let done = done(names, dice);
        let bytes = sheet::text(&Sheet { old, new, done }).into_bytes();
        compare_listing(&bytes, &mut tally, dice);
        let straight: Vec<u8> = (1..=64).collect();
        compare_try(&bytes, &straight[..dice.from_to(60, 64)], dice);
    });
    tally.finish("crowded sheets", "moved", 20, &[0, 2, 3, 4, 5]);
}

//! Sheets whose search is hard: up to 16 kept, nearly free of each other, few that
//! cut cloth, and shared places that let only some orders through.

use reference::random::dice::Dice;
use reference::sheet::{Route, Sheet, Step};

/// The old route has its steps side by side, all done in any order. The new
/// route has the same steps and some places that they share.
pub fn sheet(dice: &mut Dice) -> Sheet {
    let count = dice.from_to(8, 16) as u64;
    let step = |number: u64| Step {
        name: number + 1,
        ins: vec![number],
        outs: vec![count + number],
        reads: match dice.below(6) {
            0 => vec![dice.below(count as usize) as u64],
            _ => vec![],
        },
        writes: vec![number],
        cloth: dice.chance(8),
    };
    let old = Route {
        places: 2 * count,
        start: (0..count).collect(),
        steps: (0..count).map(step).collect(),
    };
    let mut new = old.clone();
    for _ in 0..dice.from_to(1, 6) {
        share_a_place(&mut new, dice);
    }
    let mut done: Vec<u64> = (1..=count).collect();
    dice.shuffle(&mut done);
    Sheet { old, new, done }
}

/// A new place that up to four steps fill, and as many or one fewer empty; at times it
/// has a token at the start.
fn share_a_place(route: &mut Route, dice: &mut Dice) {
    let mut steps: Vec<usize> = (0..route.steps.len()).collect();
    dice.shuffle(&mut steps);
    let fills = dice.from_to(1, 4);
    let empties = fills - dice.below(2);
    for &at in &steps[..fills] {
        route.steps[at].outs.push(route.places);
    }
    for &at in &steps[fills..fills + empties] {
        route.steps[at].ins.push(route.places);
    }
    if dice.chance(15) {
        route.start.push(route.places);
    }
    route.places += 1;
}

//! Small changes to a plan: steps reordered, dropped and added, data and marks
//! changed, branches dropped, made sequential and back.

use super::block::{Block, Kind};
use super::cloth;
use super::dice::Dice;
use super::plan::{Data, Plan};
use crate::sheet::Route;

/// Reorders steps that have nothing to do with each other.
pub fn reorder(plan: &mut Plan, dice: &mut Dice) {
    for _ in 0..dice.from_to(1, 4) {
        swap_unrelated(plan, dice);
    }
}

/// One small change of any kind; what is read is still written after it.
pub fn redraw(plan: &mut Plan, dice: &mut Dice) {
    match dice.below(29) {
        0..=1 => swap(plan, &|_, _| true, dice),
        2..=7 => swap_unrelated(plan, dice),
        8..=9 => part(plan, dice),
        10..=12 => make(plan, Kind::Parallel, Kind::Sequence, dice),
        13..=15 => drop_step(plan, &|_| true, dice),
        16..=17 => add_step(plan, dice),
        18..=19 => change_data(plan, dice),
        20..=21 => swap_cuts(plan, dice),
        22..=23 => drop_silent(plan, dice),
        24..=26 => change_branches(plan, dice),
        _ => change_mark(plan, dice),
    }
    plan.mend(dice);
}

/// Applies a change to one random block of those that the test admits.
fn change_one(
    tree: &mut Block,
    dice: &mut Dice,
    admits: &dyn Fn(&Block) -> bool,
    change: &mut dyn FnMut(&mut Block),
) {
    let mut count = 0;
    tree.visit(&mut |block| count += usize::from(admits(block)));
    if count == 0 {
        return;
    }
    let mut left = dice.below(count) + 1;
    tree.visit(&mut |block| {
        if left > 0 && admits(block) {
            left -= 1;
            if left == 0 {
                change(block);
            }
        }
    });
}

/// Two neighbours in a sequence change places, if the test admits them.
fn swap(plan: &mut Plan, admits: &dyn Fn(&Block, &Block) -> bool, dice: &mut Dice) {
    let mut other = Dice::new(dice.roll());
    let pairs = |block: &Block| -> Vec<usize> {
        let count = block.parts.len() * usize::from(block.kind == Kind::Sequence);
        (1..count)
            .filter(|&at| admits(&block.parts[at - 1], &block.parts[at]))
            .collect()
    };
    let some = |block: &Block| !pairs(block).is_empty();
    change_one(&mut plan.tree, dice, &some, &mut |block| {
        let pairs = pairs(block);
        let at = pairs[other.below(pairs.len())];
        block.parts.swap(at - 1, at);
    });
}

/// Whether one of the two writes what the other reads or writes.
fn share_data(one: &Data, other: &Data) -> bool {
    let touches = |one: &Data, other: &Data| {
        let mut writes = one.writes.iter();
        writes.any(|v| other.reads.contains(v) || other.writes.contains(v))
    };
    touches(one, other) || touches(other, one)
}

/// Whether the test holds of a step of the one block and a step of the other.
fn any_pair(plan: &Plan, blocks: [&Block; 2], test: fn(&Data, &Data) -> bool) -> bool {
    let [one, other] = blocks.map(Block::names);
    let data = |name: &u64| &plan.data[name];
    one.iter()
        .any(|a| other.iter().any(|b| test(data(a), data(b))))
}

/// Two neighbours change places that share no data and aren't both cut.
fn swap_unrelated(plan: &mut Plan, dice: &mut Dice) {
    let before = plan.clone();
    let related = |a: &Data, b: &Data| share_data(a, b) || a.cloth && b.cloth;
    let unrelated = |one: &Block, other: &Block| !any_pair(&before, [one, other], related);
    swap(plan, &unrelated, dice);
}

/// Two neighbours change places that are both cut and share no data.
fn swap_cuts(plan: &mut Plan, dice: &mut Dice) {
    let before = plan.clone();
    let cuts = |one: &Block, other: &Block| {
        let pair = [one, other];
        any_pair(&before, pair, |a, b| a.cloth && b.cloth) && !any_pair(&before, pair, share_data)
    };
    swap(plan, &cuts, dice);
}

/// A block of the one kind becomes one of the other.
fn make(plan: &mut Plan, from: Kind, to: Kind, dice: &mut Dice) {
    let admits = |block: &Block| block.kind == from;
    change_one(&mut plan.tree, dice, &admits, &mut |block| block.kind = to);
}

/// What stood one after the other stands side by side.
pub fn part(plan: &mut Plan, dice: &mut Dice) {
    make(plan, Kind::Sequence, Kind::Parallel, dice);
}

/// A step that is a part of a sequence, branch or choice goes, if the test admits it.
fn drop_step(plan: &mut Plan, admits: &dyn Fn(u64) -> bool, dice: &mut Dice) {
    let mut other = Dice::new(dice.roll());
    let goes = |block: &Block| matches!(block.kind, Kind::Step(name) if admits(name));
    let has_one = |block: &Block| {
        let loops = matches!(block.kind, Kind::Loop | Kind::Again);
        !loops && block.parts.len() > 1 && block.parts.iter().any(goes)
    };
    change_one(&mut plan.tree, dice, &has_one, &mut |block| {
        let steps: Vec<usize> = (0..block.parts.len())
            .filter(|&part| goes(&block.parts[part]))
            .collect();
        block.parts.remove(steps[other.below(steps.len())]);
    });
}

/// A branch goes, or two steps become branches or branches something else.
pub fn change_branches(plan: &mut Plan, dice: &mut Dice) {
    let [from, to] = match dice.below(6) {
        0 => [Kind::Sequence, Kind::Choice],
        1 => [Kind::Parallel, Kind::Choice],
        2 => [Kind::Choice, Kind::Sequence],
        3 => [Kind::Choice, Kind::Parallel],
        _ => return drop_branch(plan, dice),
    };
    make(plan, from, to, dice);
}

/// A branch goes; of two the other one stays.
fn drop_branch(plan: &mut Plan, dice: &mut Dice) {
    let mut other = Dice::new(dice.roll());
    let branches = |block: &Block| block.kind == Kind::Choice && block.parts.len() > 1;
    change_one(&mut plan.tree, dice, &branches, &mut |block| {
        block.parts.remove(other.below(block.parts.len()));
    });
}

/// A step goes that isn't marked and writes nothing.
pub fn drop_silent(plan: &mut Plan, dice: &mut Dice) {
    let data = plan.data.clone();
    let is_silent = |name| !data[&name].cloth && data[&name].writes.is_empty();
    drop_step(plan, &is_silent, dice);
}

/// A new step before, after or beside some block.
fn add_step(plan: &mut Plan, dice: &mut Dice) {
    let added = Block::step(plan.fresh_step(dice));
    let kind = [Kind::Sequence, Kind::Sequence, Kind::Parallel, Kind::Choice][dice.below(4)];
    let before = dice.chance(40);
    change_one(&mut plan.tree, dice, &|_| true, &mut |block| {
        let mut parts = vec![block.clone(), added.clone()];
        if before {
            parts.reverse();
        }
        *block = Block::of(kind, parts);
    });
}

/// A step reads or writes other variables.
fn change_data(plan: &mut Plan, dice: &mut Dice) {
    let names: Vec<u64> = plan.data.keys().copied().collect();
    let name = names[dice.below(names.len())];
    let mut data = plan.data[&name].clone();
    if dice.chance(50) {
        data.reads = plan.some_variables(&[30, 40, 20, 10], dice);
    } else {
        data.writes = plan.some_variables(&[10, 50, 30, 10], dice);
    }
    plan.data.insert(name, data);
}

/// A step that isn't marked and writes nothing reads other variables, or writes one.
pub fn change_silent(plan: &mut Plan, dice: &mut Dice) {
    let mut names: Vec<u64> = plan.data.keys().copied().collect();
    names.retain(|name| !plan.data[name].cloth && plan.data[name].writes.is_empty());
    let Some(name) = names.get(dice.below(names.len().max(1))) else {
        return;
    };
    let writes = plan.some_variables(&[60, 40], dice);
    let data = Data {
        reads: plan.some_variables(&[20, 60, 20], dice),
        writes,
        cloth: false,
    };
    plan.data.insert(*name, data);
}

/// A step is marked that wasn't, or isn't any more.
fn change_mark(plan: &mut Plan, dice: &mut Dice) {
    let steps = plan.data.values_mut();
    let marks = steps.map(|data| (&mut data.cloth, data.writes.is_empty()));
    cloth::change(marks.collect(), dice);
}

/// One step gets or changes a place, wherever that leads.
pub fn change_a_place(route: &mut Route, dice: &mut Dice) {
    let at = dice.below(route.steps.len());
    let place = dice.below(route.places as usize) as u64;
    let step = &mut route.steps[at];
    let kind = dice.below(6);
    let entry = dice.below(step.ins.len().min(step.outs.len()));
    match kind {
        0 => step.ins[entry] = place,
        1 => step.outs[entry] = place,
        _ => {}
    }
    if kind == 2 || kind >= 4 {
        step.ins.push(place);
    }
    if kind >= 3 {
        step.outs.push(place);
    }
    for list in [&mut step.ins, &mut step.outs] {
        list.sort();
        list.dedup();
    }
}

//! Plans with branches (02, A.8): forks, most of them behind a step that writes nothing,
//! and rings.

use super::block::{Block, Kind};
use super::dice::Dice;
use super::plan::Plan;

impl Plan {
    /// A plan of forks, one after the other or side by side. Some of it goes round.
    pub fn branching(dice: &mut Dice) -> Plan {
        let mut plan = Plan::empty(dice);
        let count = [1, 1, 1, 2][dice.below(4)];
        let mut parts: Vec<Block> = (0..count).map(|_| plan.fork(1, dice)).collect();
        if dice.chance(40) {
            parts.push(plan.writer(dice));
        }
        let kind = [Kind::Sequence, Kind::Sequence, Kind::Parallel][dice.below(3)];
        let mut tree = Block::of(kind, parts);
        if dice.chance(20) {
            let back = plan.silent(dice);
            tree = Block::of(Kind::Loop, vec![tree, back]);
        }
        plan.tree = tree;
        plan.mend(dice);
        plan
    }

    /// A plan that goes round over two places, from each of which branches lead to the
    /// other. At times a step goes beside it that writes nothing.
    pub fn ring(dice: &mut Dice) -> Plan {
        let mut plan = Plan::empty(dice);
        let mut way = || {
            let branches = (0..dice.from_to(2, 3)).map(|_| match dice.below(5) {
                0 => plan.writer(dice),
                _ => plan.silent(dice),
            });
            Block::of(Kind::Choice, branches.collect())
        };
        plan.tree = Block::of(Kind::Loop, vec![way(), way()]);
        if dice.chance(75) {
            let parts = vec![plan.silent(dice), plan.tree.clone()];
            plan.tree = Block::of(Kind::Parallel, parts);
        }
        plan.mend(dice);
        plan
    }

    /// A step that writes, one that writes nothing, and the branches behind it. Some of
    /// this is left out.
    fn fork(&mut self, depth: usize, dice: &mut Dice) -> Block {
        let mut parts = Vec::new();
        if dice.chance(65) {
            parts.push(self.writer(dice));
        }
        if dice.chance(85) {
            parts.push(self.before_branches(dice));
        }
        let count = [2, 2, 2, 3, 4][dice.below(5)];
        let branches = (0..count).map(|_| self.branch(depth, dice)).collect();
        parts.push(Block::of(Kind::Choice, branches));
        dice.chance(20).then(|| parts.push(self.silent(dice)));
        Block::of(Kind::Sequence, parts)
    }

    /// What puts the token that a branch takes. At times a step looks at it and puts it
    /// back, or leads back from there, or two steps put one each.
    fn before_branches(&mut self, dice: &mut Dice) -> Block {
        let first = if dice.chance(75) {
            self.silent(dice)
        } else {
            self.writer(dice)
        };
        let kind = match dice.below(10) {
            0..=5 => return first,
            6..=7 => Kind::Again,
            8 => Kind::Loop,
            _ => Kind::Parallel,
        };
        let second = if dice.chance(60) {
            self.silent(dice)
        } else {
            self.writer(dice)
        };
        Block::of(kind, vec![first, second])
    }

    /// One step, most often; or two in turn or side by side, or a fork again.
    fn branch(&mut self, depth: usize, dice: &mut Dice) -> Block {
        match dice.below(10) {
            0 => {
                let parts = vec![self.silent(dice), self.writer(dice)];
                Block::of(Kind::Sequence, parts)
            }
            1 => {
                let parts = vec![self.writer(dice), self.writer(dice)];
                Block::of(Kind::Parallel, parts)
            }
            2 => self.silent(dice),
            3..=4 if depth > 0 => self.fork(depth - 1, dice),
            _ => self.writer(dice),
        }
    }

    /// A step that writes nothing.
    fn silent(&mut self, dice: &mut Dice) -> Block {
        let name = self.fresh_step(dice);
        let reads = self.some_variables(&[70, 30], dice);
        let data = self.data.entry(name).or_default();
        (data.reads, data.writes) = (reads, vec![]);
        data.cloth = data.cloth && dice.chance(30);
        Block::step(name)
    }

    /// A step that writes one variable.
    fn writer(&mut self, dice: &mut Dice) -> Block {
        let name = self.fresh_step(dice);
        let reads = self.some_variables(&[70, 25, 5], dice);
        let writes = self.some_variables(&[0, 100], dice);
        let data = self.data.entry(name).or_default();
        (data.reads, data.writes) = (reads, writes);
        Block::step(name)
    }
}

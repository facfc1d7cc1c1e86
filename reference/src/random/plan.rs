//! A plan of a route: its tree of blocks, what each step reads and writes, and which
//! are marked.

use super::block::{Block, Kind};
use super::dice::Dice;
use super::{cloth, names, reads};
use crate::sheet::{Route, Step};
use std::collections::BTreeMap;

/// The variables that a step reads and writes, and its mark.
#[derive(Clone, Debug, PartialEq, Eq, Default)]
pub struct Data {
    pub reads: Vec<u64>,
    pub writes: Vec<u64>,
    pub cloth: bool,
}

impl Data {
    /// A cut may write nothing.
    fn perhaps_silent(&mut self, dice: &mut Dice) {
        if self.cloth && cloth::silent(dice) {
            self.writes.clear();
        }
    }
}

#[derive(Clone, Debug)]
pub struct Plan {
    pub tree: Block,
    pub data: BTreeMap<u64, Data>,
    /// The variables that steps draw from.
    pub pool: Vec<u64>,
    /// Of a hundred steps so many are marked.
    share: usize,
}

impl Plan {
    /// A plan of so many steps, and perhaps one or two more.
    pub fn random(least: usize, most: usize, dice: &mut Dice) -> Plan {
        let mut plan = Plan::empty(dice);
        let count = dice.from_to(least, most);
        let names: Vec<u64> = (0..count).map(|_| plan.fresh_step(dice)).collect();
        let tree = Block::random(&names, dice);
        plan.begin(tree, dice);
        if dice.chance(50) {
            plan.tidy(dice);
        }
        plan.mend(dice);
        plan
    }

    /// Gives each step a variable of its own to write, and little to read.
    fn tidy(&mut self, dice: &mut Dice) {
        let mut own: Vec<u64> = (0..32).collect();
        dice.shuffle(&mut own);
        for (name, variable) in self.tree.names().into_iter().zip(&own) {
            let reads = match dice.below(4) {
                0 => vec![own[dice.below(self.data.len())]],
                _ => vec![],
            };
            let data = self.data.entry(name).or_default();
            data.reads = reads;
            data.writes = vec![*variable];
            data.perhaps_silent(dice);
        }
        self.pool = own;
    }

    /// A plan whose main part loops and builds on what it wrote before, or only cuts.
    pub fn looping(dice: &mut Dice) -> Plan {
        let mut plan = Plan::empty(dice);
        let counts = [dice.from_to(1, 3), dice.from_to(1, 2)];
        let mut parts = Vec::new();
        for count in counts {
            let names: Vec<u64> = (0..count).map(|_| plan.fresh_step(dice)).collect();
            parts.push(Block::random(&names, dice));
        }
        let only_cuts = dice.chance(25);
        for data in plan.data.values_mut() {
            let variable = plan.pool[dice.below(plan.pool.len().min(2))];
            data.reads = vec![variable];
            data.writes = vec![variable];
            data.perhaps_silent(dice);
            if only_cuts {
                data.cloth = true;
                data.writes.clear();
            }
        }
        let kind = [Kind::Loop, Kind::Again][dice.below(2)];
        plan.begin(Block::of(kind, parts), dice);
        plan.mend(dice);
        plan
    }

    /// A plan of panels that are cut, one after the other or side by side.
    pub fn cutting(dice: &mut Dice) -> Plan {
        let mut plan = Plan::empty(dice);
        let count = dice.from_to(1, 3);
        let parts = (0..count).map(|_| plan.panel(dice)).collect();
        let kind = [Kind::Sequence, Kind::Parallel][dice.below(2)];
        plan.begin(Block::of(kind, parts), dice);
        plan.mend(dice);
        plan
    }

    /// A panel: one variable is written, another from it, and the panel is cut by
    /// that; both are written again, and one is looked at. Some of this is left out.
    fn panel(&mut self, dice: &mut Dice) -> Block {
        dice.shuffle(&mut self.pool);
        let (one, other) = (self.pool[0], self.pool[1]);
        let both = vec![one.min(other), one.max(other)];
        let panel = [
            (vec![], vec![one], false),
            (vec![one], vec![other], false),
            (vec![other], vec![], true),
            (vec![], both, false),
            (vec![one], vec![], false),
        ];
        let mut steps = Vec::new();
        for (reads, writes, cloth) in panel {
            if cloth || dice.chance(75) {
                let name = self.fresh_step(dice);
                let data = Data {
                    reads,
                    writes,
                    cloth,
                };
                self.data.insert(name, data);
                steps.push(Block::step(name));
            }
        }
        Block::of(Kind::Sequence, steps)
    }

    pub(super) fn empty(dice: &mut Dice) -> Plan {
        let mut pool: Vec<u64> = (0..32).collect();
        dice.shuffle(&mut pool);
        pool.truncate(dice.from_to(2, 16));
        Plan {
            tree: Block::of(Kind::Sequence, Vec::new()),
            data: BTreeMap::new(),
            pool,
            share: cloth::share(dice),
        }
    }

    /// A plan that goes round: its last part leads from where the others end back to
    /// where they begin.
    pub fn round(dice: &mut Dice) -> Plan {
        let mut plan = Plan::empty(dice);
        let count = dice.from_to(1, 4);
        let names: Vec<u64> = (0..count).map(|_| plan.fresh_step(dice)).collect();
        let back = Block::step(plan.fresh_step(dice));
        let on = Block::random(&names, dice);
        plan.tree = Block::of(Kind::Loop, vec![on, back]);
        if dice.chance(70) {
            plan.tidy(dice);
        }
        plan.mend(dice);
        plan
    }

    /// Sets the tree. At times a step goes before it; at times one runs beside it.
    fn begin(&mut self, tree: Block, dice: &mut Dice) {
        let mut tree = tree;
        if dice.chance(40) {
            let first = Block::step(self.fresh_step(dice));
            tree = Block::of(Kind::Sequence, vec![first, tree]);
        }
        if dice.chance(15) {
            let beside = Block::step(self.fresh_step(dice));
            tree = Block::of(Kind::Parallel, vec![tree, beside]);
        }
        self.tree = tree;
    }

    /// Lets the steps of the tree write all that they read.
    pub fn mend(&mut self, dice: &mut Dice) {
        let names = self.tree.names();
        let drawn = self
            .data
            .iter_mut()
            .filter(|(name, _)| names.contains(name));
        let lists = drawn.map(|(_, data)| (&mut data.reads, &mut data.writes));
        reads::mend(lists.collect(), dice);
    }

    /// A step with a name of its own, random data and at times a mark.
    pub fn fresh_step(&mut self, dice: &mut Dice) -> u64 {
        let taken: Vec<u64> = self.data.keys().copied().collect();
        let name = names::fresh(&taken, dice);
        let mut data = Data {
            reads: self.some_variables(&[50, 35, 10, 5], dice),
            writes: self.some_variables(&[15, 67, 13, 5], dice),
            cloth: dice.chance(self.share),
        };
        data.perhaps_silent(dice);
        self.data.insert(name, data);
        name
    }

    /// Rising variables from the pool; the weights say how often 0, 1, 2, ...
    pub fn some_variables(&self, weights: &[usize], dice: &mut Dice) -> Vec<u64> {
        let mut roll = dice.below(100);
        let mut count = 0;
        while count + 1 < weights.len() && roll >= weights[count] {
            roll -= weights[count];
            count += 1;
        }
        let mut pool = self.pool.clone();
        dice.shuffle(&mut pool);
        pool.truncate(count);
        pool.sort();
        pool
    }

    /// Draws the route, with the places numbered and the steps listed at random. Its
    /// start is where the tree begins, also where a loop leads back to there.
    pub fn draw(&self, dice: &mut Dice) -> Route {
        let (places, from, mut arrows) = self.tree.lay_out();
        let mut number: Vec<u64> = (0..places).collect();
        if dice.chance(60) {
            dice.shuffle(&mut number);
        }
        if dice.chance(30) {
            dice.shuffle(&mut arrows);
        }
        let renumber = |list: &[u64]| {
            let mut list: Vec<u64> = list.iter().map(|&p| number[p as usize]).collect();
            list.sort();
            list
        };
        let step = |(name, ins, outs): &(u64, Vec<u64>, Vec<u64>)| Step {
            name: *name,
            ins: renumber(ins),
            outs: renumber(outs),
            reads: self.data[name].reads.clone(),
            writes: self.data[name].writes.clone(),
            cloth: self.data[name].cloth,
        };
        Route {
            places,
            start: renumber(&from),
            steps: arrows.iter().map(step).collect(),
        }
    }
}

//! A tree of blocks, and how it is laid out as a net. A block goes from a set
//! of places to a set of places; parallel parts share the sets out.

use super::dice::Dice;

#[derive(Clone, Copy, Debug, PartialEq, Eq)]
pub enum Kind {
    Step(u64),
    Sequence,
    Parallel,
    Choice,
    /// Its first part goes on, its second goes back.
    Loop,
    /// Its first part goes on, its second goes from there to there.
    Again,
}

#[derive(Clone, Debug, PartialEq, Eq)]
pub struct Block {
    pub kind: Kind,
    pub parts: Vec<Block>,
}

/// A step's places: its name, in-places and out-places.
pub type Arrow = (u64, Vec<u64>, Vec<u64>);

impl Block {
    pub fn step(name: u64) -> Block {
        Block {
            kind: Kind::Step(name),
            parts: Vec::new(),
        }
    }

    pub fn of(kind: Kind, parts: Vec<Block>) -> Block {
        Block { kind, parts }
    }

    /// A random tree with these steps as its leaves.
    pub fn random(names: &[u64], dice: &mut Dice) -> Block {
        if let [name] = names {
            return Block::step(*name);
        }
        let kind = match dice.below(20) {
            0..=10 => Kind::Sequence,
            11..=15 => Kind::Parallel,
            16..=17 => Kind::Choice,
            18 => Kind::Loop,
            _ => Kind::Again,
        };
        let most = if kind == Kind::Sequence { 4 } else { 2 };
        let mut parts = Vec::new();
        let mut rest = names;
        while parts.len() + 1 < most && rest.len() > 1 {
            let (first, others) = rest.split_at(dice.from_to(1, rest.len() - 1));
            parts.push(Block::random(first, dice));
            rest = others;
        }
        parts.push(Block::random(rest, dice));
        Block::of(kind, parts)
    }

    /// The names of the block's steps.
    pub fn names(&self) -> Vec<u64> {
        match self.kind {
            Kind::Step(name) => vec![name],
            _ => self.parts.iter().flat_map(Block::names).collect(),
        }
    }

    /// The number of places that the block needs on its near or far side.
    fn width(&self, far: bool) -> usize {
        let widths = |far: bool| self.parts.iter().map(move |part| part.width(far));
        match self.kind {
            Kind::Step(_) => 1,
            Kind::Sequence if far => self.parts[self.parts.len() - 1].width(true),
            Kind::Sequence => self.parts[0].width(false),
            Kind::Parallel => widths(far).sum(),
            Kind::Choice => widths(far).max().unwrap_or(1),
            Kind::Loop => self.parts[0].width(far).max(self.parts[1].width(!far)),
            Kind::Again if far => widths(true).chain(widths(false)).max().unwrap_or(1),
            Kind::Again => self.parts[0].width(false),
        }
    }

    /// Lays the whole tree out; gives the number of places, those where it begins and
    /// the steps.
    pub fn lay_out(&self) -> (u64, Vec<u64>, Vec<Arrow>) {
        let mut net = Layout::default();
        let from = net.fresh(self.width(false));
        let to = net.fresh(self.width(true));
        net.lay(self, &from, &to);
        (net.places, from, net.arrows)
    }

    /// Visits every block of the tree.
    pub fn visit(&mut self, change: &mut dyn FnMut(&mut Block)) {
        change(self);
        for part in &mut self.parts {
            part.visit(change);
        }
    }
}

/// The net drawn so far.
#[derive(Default)]
struct Layout {
    places: u64,
    arrows: Vec<Arrow>,
}

impl Layout {
    fn fresh(&mut self, count: usize) -> Vec<u64> {
        let first = self.places;
        self.places += count as u64;
        (first..self.places).collect()
    }

    fn lay(&mut self, block: &Block, from: &[u64], to: &[u64]) {
        match block.kind {
            Kind::Step(name) => self.arrows.push((name, from.to_vec(), to.to_vec())),
            Kind::Sequence => self.lay_sequence(&block.parts, from, to),
            Kind::Parallel => self.lay_parallel(&block.parts, from, to),
            Kind::Choice => block.parts.iter().for_each(|part| self.lay(part, from, to)),
            Kind::Loop => {
                self.lay(&block.parts[0], from, to);
                self.lay(&block.parts[1], to, from);
            }
            Kind::Again => {
                self.lay(&block.parts[0], from, to);
                self.lay(&block.parts[1], to, to);
            }
        }
    }

    fn lay_sequence(&mut self, parts: &[Block], from: &[u64], to: &[u64]) {
        let mut near = from.to_vec();
        for (index, part) in parts.iter().enumerate() {
            let far = match parts.get(index + 1) {
                Some(next) => self.fresh(part.width(true).max(next.width(false))),
                None => to.to_vec(),
            };
            self.lay(part, &near, &far);
            near = far;
        }
    }

    /// Each part gets the places that it needs, the last one all the rest.
    fn lay_parallel(&mut self, parts: &[Block], from: &[u64], to: &[u64]) {
        let (mut from, mut to) = (from, to);
        for (index, part) in parts.iter().enumerate() {
            let last = index + 1 == parts.len();
            let ins = if last { from.len() } else { part.width(false) };
            let outs = if last { to.len() } else { part.width(true) };
            self.lay(part, &from[..ins], &to[..outs]);
            (from, to) = (&from[ins..], &to[outs..]);
        }
    }
}

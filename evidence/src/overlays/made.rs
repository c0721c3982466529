//! Two trees made beside each other, key by key, together with what the upper laid over the lower gives.

use crate::documents::{keys, Rng};
use crate::second::overlay::CLASH;
use crate::second::NESTING;
use crate::tables::texts;
use crate::tables::trees::Node;
use std::collections::HashSet;

pub type Pairs = Vec<(Vec<u8>, Node)>;

/// Both roots' pairs, and those of the result or CLASH.
pub struct Made {
    pub lower: Pairs,
    pub upper: Pairs,
    pub known: Result<Pairs, u32>,
}

/// How two trees are made.
#[derive(Clone, Copy)]
pub struct Plan {
    /// The most keys that both have together, in one object.
    pub keys: usize,
    /// About as many keys in all.
    pub size: usize,
    /// The containers around each other at most.
    pub levels: usize,
    /// Whether some value is to clash.
    pub clash: bool,
    /// Whether no key is in both.
    pub apart: bool,
    /// Whether each object has an object of the same key in both, down to the last level.
    pub deep: bool,
}

pub const FEW: Plan = Plan { keys: 6, size: 14, levels: 5, clash: false, apart: false, deep: false };

pub fn made(rng: &mut Rng, plan: Plan) -> Made {
    let mut maker = Maker { rng, plan, left: plan.size, clashed: false };
    let mut made = maker.objects(1);
    if maker.clashed {
        made.known = Err(CLASH);
    }
    made
}

struct Maker<'r> {
    rng: &'r mut Rng,
    plan: Plan,
    /// Keys that are still to come.
    left: usize,
    clashed: bool,
}

/// A key that no set has.
fn new_key(rng: &mut Rng, met: &mut HashSet<Vec<u8>>) -> Vec<u8> {
    loop {
        let key = match rng.below(8) {
            0 => keys::marked(rng.below(64), 2),
            1 => {
                let same = "k".repeat(rng.below(40));
                format!("{same}{}{same}", rng.below(8)).into_bytes()
            }
            2 => format!("key{}", rng.below(5_000)).into_bytes(),
            _ => texts::key(rng, true),
        };
        if met.insert(key.clone()) {
            return key;
        }
    }
}

fn shuffle<T>(rng: &mut Rng, list: &mut [T]) {
    for i in (1..list.len()).rev() {
        list.swap(i, rng.below(i + 1));
    }
}

impl Maker<'_> {
    /// The pairs of two objects, and those of the result, as the `level`-th container.
    fn objects(&mut self, level: usize) -> Made {
        let mut count = self.rng.below(self.plan.keys + 1).min(self.left);
        count += usize::from(self.plan.deep && count == 0 && level < self.plan.levels);
        self.left = self.left.saturating_sub(count);
        let (mut met, mut lower, mut over, mut new) = (HashSet::new(), Vec::new(), Vec::new(), Vec::new());
        let down = if self.plan.deep && level < self.plan.levels { self.rng.below(count) } else { usize::MAX };
        for i in 0..count {
            let key = new_key(self.rng, &mut met);
            match self.rng.below(4) {
                _ if i == down => self.both(level, key, true, &mut lower, &mut over),
                0 => lower.push((key.clone(), self.any(level), None)),
                1 => new.push((key, self.any(level))),
                _ if self.plan.apart && self.rng.once_in(2) => lower.push((key.clone(), self.any(level), None)),
                _ if self.plan.apart => new.push((key, self.any(level))),
                _ => self.both(level, key, false, &mut lower, &mut over),
            }
        }
        self.together(lower, over, new)
    }

    /// A key that both have: in the lower with what comes of it, and in the upper.
    fn both(
        &mut self,
        level: usize,
        key: Vec<u8>,
        objects: bool,
        lower: &mut Vec<(Vec<u8>, Node, Option<Node>)>,
        over: &mut Pairs,
    ) {
        let clash = self.plan.clash && !self.clashed && self.rng.once_in(3);
        let (one, other, result) = if objects || (level < self.plan.levels && self.rng.once_in(3)) {
            let Made { lower, upper, known } = self.objects(level + 1);
            (Node::Object(lower), Node::Object(upper), known.ok().map(Node::Object))
        } else if clash && level < NESTING {
            self.clashed = true;
            let (one, other) = (self.object(level), self.other(level));
            if self.rng.once_in(2) {
                (one, other, None)
            } else {
                (other, one, None)
            }
        } else {
            let (one, other) = (self.other(level), self.other(level));
            (one, other.clone(), Some(other))
        };
        let result = result.unwrap_or(Node::Leaf(1, Vec::new()));
        lower.push((key.clone(), one, Some(result)));
        over.push((key, other));
    }

    /// The upper's keys in the order of the lower, in its reverse or in any.
    fn together(&mut self, lower: Vec<(Vec<u8>, Node, Option<Node>)>, over: Pairs, new: Pairs) -> Made {
        let fresh: HashSet<_> = new.iter().map(|pair| pair.0.clone()).collect();
        let mut upper = over;
        upper.extend(new);
        match self.rng.below(4) {
            0 => {}
            1 => upper.reverse(),
            _ => shuffle(self.rng, &mut upper),
        }
        let news = upper.iter().filter(|pair| fresh.contains(&pair.0)).cloned();
        let kept = lower.iter().map(|(key, value, over)| (key.clone(), over.as_ref().unwrap_or(value).clone()));
        let known = kept.chain(news).collect();
        Made { lower: lower.into_iter().map(|(key, value, _)| (key, value)).collect(), upper, known: Ok(known) }
    }

    /// Any value inside of so many containers.
    fn any(&mut self, around: usize) -> Node {
        if around < NESTING && self.rng.once_in(4) {
            self.object(around)
        } else {
            self.other(around)
        }
    }

    fn object(&mut self, around: usize) -> Node {
        let mut met = HashSet::new();
        let count = self.rng.below(4);
        Node::Object((0..count).map(|_| (new_key(self.rng, &mut met), self.any(around + 1))).collect())
    }

    /// A value that is no object; in arrays there may be some.
    fn other(&mut self, around: usize) -> Node {
        match self.rng.below(8) {
            0..=1 if around < NESTING => {
                let count = self.rng.below(4);
                Node::Array((0..count).map(|_| self.any(around + 1)).collect())
            }
            2 => Node::Leaf(1, Vec::new()),
            3 => Node::Leaf(2 + self.rng.below(2) as u32, Vec::new()),
            4 => Node::Leaf(5, texts::float(self.rng, true)),
            5 => Node::Leaf(6, texts::string(self.rng, true)),
            6 => Node::Leaf(7, texts::bytes(self.rng)),
            _ => Node::Leaf(4, texts::integer(self.rng, true)),
        }
    }
}

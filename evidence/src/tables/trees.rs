//! Random trees turned into rows. How a tree was grown tells whether its table is sound: a third source beside the two
//! tests of soundness.

use super::{texts, Table};
use crate::documents::Rng;
use crate::second::{NESTING, WORDS};

/// A tree that is to be turned into rows, sound or not.
#[derive(Clone, Debug)]
pub enum Node {
    /// A kind below 8 and its text.
    Leaf(u32, Vec<u8>),
    Array(Vec<Node>),
    Object(Vec<(Vec<u8>, Node)>),
}

/// Rows that say of themselves what `node` is, spans, lines and columns zero.
pub fn plain(node: &Node, sound: bool) -> Table {
    let mut rows = Rows { rows: Vec::new(), text: Vec::new() };
    rows.value(node, 0);
    let Rows { rows, text } = rows;
    Table { rows: rows.len(), words: rows.concat(), text, sound: Some(sound) }
}

/// The same, spans, lines and columns of any numbers.
pub fn table(rng: &mut Rng, node: &Node, sound: bool) -> Table {
    let mut table = plain(node, sound);
    if rng.once_in(2) {
        for row in table.words.chunks_mut(WORDS) {
            for word in [1, 2, 7, 8] {
                row[word] = rng.word() as u32 >> rng.below(32);
            }
        }
    }
    table
}

struct Rows {
    rows: Vec<[u32; WORDS]>,
    text: Vec<u8>,
}

impl Rows {
    fn leaf(&mut self, kind: u32, text: &[u8], parent: usize) {
        let from = self.text.len() as u32;
        self.text.extend_from_slice(text);
        let (from, to) = if kind <= 3 { (0, 0) } else { (from, self.text.len() as u32) };
        self.rows.push([kind, 0, 0, from, to, parent as u32, self.rows.len() as u32 + 1, 0, 0]);
    }

    fn value(&mut self, node: &Node, parent: usize) {
        let row = self.rows.len();
        let (kind, children) = match node {
            Node::Leaf(kind, text) => return self.leaf(*kind, text, parent),
            Node::Array(list) => (8, list.len()),
            Node::Object(pairs) => (9, pairs.len()),
        };
        self.rows.push([kind, 0, 0, 0, children as u32, parent as u32, 0, 0, 0]);
        match node {
            Node::Leaf(..) => {}
            Node::Array(list) => list.iter().for_each(|element| self.value(element, row)),
            Node::Object(pairs) => pairs.iter().for_each(|(key, value)| {
                self.leaf(10, key, row);
                self.value(value, row);
            }),
        }
        self.rows[row][6] = self.rows.len() as u32;
    }
}

/// A random tree, and whether it is sound: every other one has one fault in it.
pub fn tree(rng: &mut Rng) -> (Node, bool) {
    let sound = rng.once_in(2);
    let mut grower = Grower { rng, left: 0, fault: !sound, size: 0 };
    grower.size = if grower.rng.once_in(10) { 60 } else { 12 };
    grower.left = grower.rng.below(grower.size);
    let node = grower.value(0);
    (node, sound || grower.fault)
}

/// A chain of containers, at most 32 of which are sound, with something at its end.
pub fn chain(rng: &mut Rng) -> (Node, bool) {
    let depth = NESTING - 2 + rng.below(4);
    let mut node = match rng.below(3) {
        0 => Node::Array(Vec::new()),
        1 => Node::Object(Vec::new()),
        _ => Node::Leaf(1, Vec::new()),
    };
    let containers = depth + usize::from(!matches!(node, Node::Leaf(..)));
    let arrays = rng.below(4);
    for _ in 0..depth {
        let array = match arrays {
            0 => true,
            1 => false,
            _ => rng.once_in(2),
        };
        node = if array { Node::Array(vec![node]) } else { Node::Object(vec![(texts::key(rng, true), node)]) };
        if rng.once_in(8) {
            if let Node::Array(list) = &mut node {
                list.insert(0, Node::Leaf(4, b"7".to_vec()));
            }
        }
    }
    (node, containers <= NESTING)
}

struct Grower<'r> {
    rng: &'r mut Rng,
    size: usize,
    /// Rows to go before the fault.
    left: usize,
    /// Whether the fault is still to come.
    fault: bool,
}

impl Grower<'_> {
    /// Whether the fault stands here.
    fn faulty(&mut self) -> bool {
        let here = self.fault && self.left == 0;
        self.left = self.left.saturating_sub(1);
        here
    }

    /// What is made here is good, unless the fault stands here and was made.
    fn good(&mut self) -> bool {
        let faulty = self.faulty();
        self.fault &= !faulty;
        !faulty
    }

    fn value(&mut self, depth: usize) -> Node {
        self.size = self.size.saturating_sub(1);
        match self.rng.below(12) {
            0..=2 if depth < 6 => self.array(depth),
            3..=6 if depth < 6 => self.object(depth),
            7 => Node::Leaf(1 + self.rng.below(3) as u32, Vec::new()),
            8 => Node::Leaf(7, texts::bytes(self.rng)),
            9 => {
                let good = self.good();
                Node::Leaf(4, texts::integer(self.rng, good))
            }
            10 => {
                let good = self.good();
                Node::Leaf(5, texts::float(self.rng, good))
            }
            _ => {
                let good = self.good();
                Node::Leaf(6, texts::string(self.rng, good))
            }
        }
    }

    fn more(&mut self) -> bool {
        self.size > 0 && !self.rng.once_in(4)
    }

    fn array(&mut self, depth: usize) -> Node {
        let mut list = Vec::new();
        while self.more() {
            list.push(self.value(depth + 1));
        }
        Node::Array(list)
    }

    fn object(&mut self, depth: usize) -> Node {
        let mut pairs: Vec<(Vec<u8>, Node)> = Vec::new();
        while self.more() {
            let key = self.key(&pairs);
            let value = self.value(depth + 1);
            pairs.push((key, value));
        }
        Node::Object(pairs)
    }

    /// A key that the object does not have; as a fault one that it has, or that is no string.
    fn key(&mut self, pairs: &[(Vec<u8>, Node)]) -> Vec<u8> {
        if !self.good() {
            return match pairs {
                [] => texts::key(self.rng, false),
                pairs => pairs[self.rng.below(pairs.len())].0.clone(),
            };
        }
        loop {
            let key = texts::key(self.rng, true);
            if pairs.iter().all(|pair| pair.0 != key) {
                return key;
            }
        }
    }
}

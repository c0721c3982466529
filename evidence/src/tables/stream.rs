//! The tables of a run, in an order fixed by the seed, without end.

use super::damage::Damage;
use super::{trees, Table};
use crate::documents::{deep::deep, grow, grow_wide, Rng};
use crate::second::{Second, LONGEST, WORDS};

/// Characters, and in how many bytes they are written between quotes.
const LONG: [(&str, usize); 6] = [("a", 1), ("\0", 5), ("\n", 2), ("é", 2), ("\u{9f}", 6), ("\u{10ffff}", 10)];

pub struct Stream {
    rng: Rng,
    second: Second,
    damage: Option<Damage>,
}

impl Stream {
    pub fn new(seed: u64) -> Stream {
        Stream { rng: Rng::new(seed), second: Second::new(), damage: None }
    }

    /// The next table: every other one is damaged, and a table is followed by all its damaged forms.
    pub fn table(&mut self) -> Table {
        if self.rng.once_in(2) {
            return self.damaged();
        }
        match self.rng.below(100) {
            0..=24 => self.filled(),
            25..=79 => self.tree(),
            80..=93 => {
                let (node, sound) = trees::chain(&mut self.rng);
                trees::table(&mut self.rng, &node, sound)
            }
            94..=97 => self.random(),
            98 if self.rng.once_in(2) => self.long(),
            _ => self.large(),
        }
    }

    fn damaged(&mut self) -> Table {
        loop {
            let next = self.damage.as_mut().and_then(|damage| damage.next(&mut self.rng));
            if let Some(table) = next {
                return table;
            }
            let good = if self.rng.once_in(2) { self.filled() } else { self.tree() };
            self.damage = (good.rows > 0).then(|| Damage::new(good));
        }
    }

    fn tree(&mut self) -> Table {
        let (node, sound) = trees::tree(&mut self.rng);
        trees::table(&mut self.rng, &node, sound)
    }

    /// What a document gives.
    fn filled(&mut self) -> Table {
        loop {
            let size = if self.rng.once_in(20) { self.rng.below(800) } else { self.rng.below(100) };
            let doc = if self.rng.once_in(8) {
                let depth = 28 + self.rng.below(5);
                deep(&mut self.rng, depth)
            } else {
                grow(&mut self.rng, size, 32).doc
            };
            if let Ok(given) = self.second.given(&doc) {
                return given.into();
            }
        }
    }

    /// What a document of thousands of bytes gives.
    fn large(&mut self) -> Table {
        loop {
            let (size, nesting) = (self.rng.below(30_000), 1 + self.rng.below(6));
            if let Ok(given) = self.second.given(&grow_wide(&mut self.rng, size, nesting).doc) {
                return given.into();
            }
        }
    }

    /// Small words of any meaning.
    fn random(&mut self) -> Table {
        let rows = self.rng.below(4);
        let words = (0..rows * WORDS).map(|_| self.rng.below(11) as u32).collect();
        let text = (0..self.rng.below(6)).map(|_| b"019-.e\"\x80"[self.rng.below(8)]).collect();
        Table { words, rows, text, sound: None }
    }

    /// A string, or an array of one, that is written in about as many bytes as a document may have.
    fn long(&mut self) -> Table {
        let bytes = LONGEST - 9 + self.rng.below(12);
        let (character, written) = LONG[self.rng.below(LONG.len())];
        let mut text = character.repeat(bytes / written).into_bytes();
        text.extend(std::iter::repeat_n(b'x', bytes % written));
        let leaf = trees::Node::Leaf(6, text);
        let node = match self.rng.below(3) {
            0 => trees::Node::Array(vec![leaf]),
            1 => trees::Node::Object(vec![(b"k".to_vec(), leaf)]),
            _ => leaf,
        };
        trees::table(&mut self.rng, &node, true)
    }
}

//! The items of a run, in an order fixed by the seed, without end.

use super::damage::Damage;
use super::fields::moved;
use super::made::made;
use super::{wide, Item, Source};
use crate::documents::Rng;
use crate::second::questions::BADROW;
use crate::second::stored::BADFORM;
use crate::tables::stream::Stream as Tables;
use crate::tables::trees::{chain, table, tree, Node};

pub struct Stream {
    rng: Rng,
    tables: Tables,
    damage: Option<Damage>,
}

impl Stream {
    pub fn new(seed: u64) -> Stream {
        Stream { rng: Rng::new(seed), tables: Tables::new(!seed), damage: None }
    }

    pub fn item(&mut self) -> Item {
        let rng = &mut self.rng;
        match rng.below(400) {
            0..=59 => Item::Table { table: self.tables.table(), source: Source::Tables, known: None },
            60..=99 => made_table(rng),
            100 => wide::any(rng),
            101 if rng.once_in(3) => wide::any(rng),
            101..=139 => form(tree(rng), [Source::Made, Source::Faulty]),
            140..=154 => form(chain(rng), [Source::Deep; 2]),
            155..=158 => form(keys(rng), [Source::Keys; 2]),
            159..=219 => {
                let good = good(rng);
                Item::Bytes { bytes: moved(&good, rng), source: Source::Fields, known: None }
            }
            220..=229 => random(rng),
            _ => self.damaged(),
        }
    }

    /// A form is followed by all its damaged ones.
    fn damaged(&mut self) -> Item {
        loop {
            let next = self.damage.as_mut().and_then(|damage| damage.next(&mut self.rng));
            if let Some(item) = next {
                return item;
            }
            self.damage = Some(Damage::new(good(&mut self.rng)));
        }
    }
}

/// The form of a sound tree.
fn good(rng: &mut Rng) -> Vec<u8> {
    loop {
        if let (node, true) = tree(rng) {
            return made(&node).bytes;
        }
    }
}

fn made_table(rng: &mut Rng) -> Item {
    let (node, sound) = tree(rng);
    let known = if sound { Ok(made(&node).bytes) } else { Err(BADROW) };
    Item::Table { table: table(rng, &node, sound), source: Source::MadeTable, known: Some(known) }
}

/// The form of a tree, sound or not, as the first or the other source.
fn form((node, sound): (Node, bool), sources: [Source; 2]) -> Item {
    let made = made(&node);
    let known = if sound { Ok(made.loaded) } else { Err(BADFORM) };
    Item::Bytes { bytes: made.bytes, source: sources[usize::from(!sound)], known: Some(known) }
}

/// An object of more keys than are compared pair by pair, of one beginning or end, and perhaps one of them twice.
fn keys(rng: &mut Rng) -> (Node, bool) {
    let count = [15, 16, 17, 40, 300, 511, 512, 513, 700, 2_049][rng.below(10)] + rng.below(3);
    // So that the object is not too wide.
    let long = rng.below(if count > 1_000 { 2 } else { 3 }) * 20;
    let name = |i: usize| match long {
        0 => format!("k{i}"),
        20 => format!("{i}{:-<20}", ""),
        _ => format!("{:-<40}{i}", ""),
    };
    let mut pairs: Vec<_> = (0..count).map(|i| (name(i).into_bytes(), Node::Leaf(1, Vec::new()))).collect();
    let repeats = rng.once_in(2);
    if repeats {
        let (one, other) = (rng.below(count), rng.below(count - 1));
        let other = if other >= one { other + 1 } else { other };
        pairs[one].0 = pairs[other].0.clone();
    }
    (Node::Object(pairs), !repeats)
}

/// Small heads of any meaning, and what is behind them.
fn random(rng: &mut Rng) -> Item {
    let mut bytes = Vec::new();
    for _ in 0..1 + rng.below(6) {
        bytes.extend([rng.below(12) as u8, 0, rng.below(10) as u8]);
        bytes.extend((0..rng.below(4)).map(|_| b"01-.ea\xc3\xa9"[rng.below(8)]));
    }
    Item::Bytes { bytes, source: Source::Random, known: None }
}

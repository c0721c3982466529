//! What laying one table over another takes.

use super::{Bench, FEW, LONG_ENOUGH, MANY};
use crate::clock::Shortest;
use crate::compare::overlaying::{Lays, SecondLays};
use crate::compare::Reader;
use crate::documents::keys;
use crate::proved::Proved;
use crate::second::overlay::{laid, RULES};
use crate::second::{Second, WORDS};
use crate::tables::trees::{plain, Node};
use crate::tables::Table;
use std::hint::black_box;

/// How much more laying may cost than reading both documents: with short keys, and with those chosen to cost the most.
const SHORT: f64 = 4.0;
const CHOSEN: f64 = 8.0;
/// Turns end before there are many where they take so long.
const TOO_LONG: f64 = 3.0;

/// A table and one that is laid over it.
pub struct Case {
    pub name: String,
    lower: Table,
    upper: Table,
    /// What they are read from, if there are such documents.
    docs: Option<[String; 2]>,
    /// How much more than reading it may cost.
    pub most: f64,
    /// The case of the same form, but smaller, beside which a key may cost no more.
    pub smaller: Option<usize>,
}

/// The shortest times in seconds: of laying, of reading both documents, and of the second overlay.
#[derive(Clone, Copy)]
pub struct Overlaid {
    pub keys: usize,
    pub laying: f64,
    pub reading: Option<f64>,
    pub second: f64,
}

impl Overlaid {
    /// Nanoseconds a key of both.
    pub fn a_key(&self) -> f64 {
        self.laying / self.keys as f64 * 1e9
    }

    /// How much more than reading.
    pub fn times(&self) -> f64 {
        self.reading.map_or(0.0, |reading| self.laying / reading)
    }
}

fn table(doc: &str) -> Table {
    Second::new().given(doc.as_bytes()).expect("a document").into()
}

fn read(name: &str, lower: String, upper: String, most: f64) -> Case {
    let (one, other) = (table(&lower), table(&upper));
    Case { name: name.into(), lower: one, upper: other, docs: Some([lower, upper]), most, smaller: None }
}

/// An object of so many keys, each behind `before`.
fn object(before: &str, order: impl Iterator<Item = usize>) -> Node {
    Node::Object(order.map(|i| (format!("{before}{i}").into_bytes(), Node::Leaf(3, Vec::new()))).collect())
}

fn made(name: String, lower: &Node, upper: &Node, smaller: Option<usize>) -> Case {
    let [lower, upper] = [lower, upper].map(|node| plain(node, true));
    Case { name, lower, upper, docs: None, most: f64::MAX, smaller }
}

fn reversed(count: usize, smaller: Option<usize>) -> Case {
    let (lower, upper) = (object("key", 0..count), object("key", (0..count).rev()));
    made(format!("{count} keys over as many, reversed"), &lower, &upper, smaller)
}

fn apart(count: usize, smaller: Option<usize>) -> Case {
    let (lower, upper) = (object("key", 0..count), object("kez", 0..count));
    made(format!("{count} keys over as many others"), &lower, &upper, smaller)
}

/// Keys of one mark, at the root and reversed.
fn marked(count: usize, smaller: Option<usize>) -> Case {
    let list = |order: &mut dyn Iterator<Item = usize>| {
        Node::Object(order.map(|i| (keys::marked(i, 5), Node::Leaf(3, Vec::new()))).collect())
    };
    let (lower, upper) = (list(&mut (0..count)), list(&mut (0..count).rev()));
    made(format!("{count} keys of one mark over as many, reversed"), &lower, &upper, smaller)
}

/// An object of many keys, in each of ten of which there is another: the room for keys is taken already.
fn below(count: usize, smaller: Option<usize>) -> Case {
    let node = |inner: &Node| match object("key", 0..5_000) {
        Node::Object(mut pairs) => {
            pairs.iter_mut().take(10).for_each(|pair| pair.1 = inner.clone());
            Node::Object(pairs)
        }
        other => other,
    };
    let (lower, upper) = (node(&object("key", 0..count)), node(&object("key", (0..count).rev())));
    made(format!("10 objects of {count} keys below 5000, reversed"), &lower, &upper, smaller)
}

/// As people have them, documents of 32 KB of keys, keys chosen to cost the most, and larger objects.
pub fn cases() -> Vec<Case> {
    let short = keys::short();
    let (fleet, site) =
        (include_str!("../../../examples/all-tablets.yay"), include_str!("../../../examples/cold-store.yay"));
    let mut cases = vec![
        read("a site over a fleet", fleet.into(), site.into(), SHORT),
        read("short keys, same order", short.clone(), short.clone(), SHORT),
        read("short keys, reversed", short.clone(), keys::reversed(&short), SHORT),
        read("short keys, others", short.clone(), keys::others(&short), SHORT),
    ];
    for (name, doc) in [
        ("keys of one chain, reversed", keys::of_one_chain(keys::SOME)),
        ("keys of one mark, reversed", keys::of_one_mark(keys::SOME)),
        ("keys of one mark and one chain, reversed", keys::of_one_mark_and_chain(keys::SOME)),
        ("keys of 200 bytes that share their last 32, reversed", keys::of_one_end(keys::SOME)),
    ] {
        cases.push(read(name, doc.clone(), keys::reversed(&doc), CHOSEN));
    }
    for growing in [reversed, apart, marked, below] {
        let smaller = cases.len();
        cases.push(growing(2_000, None));
        cases.push(growing(8_000, Some(smaller)));
    }
    cases
}

impl Bench {
    /// The two overlays take turns with reading. Nothing if they differ.
    pub fn overlaid(&mut self, case: &Case) -> Option<Overlaid> {
        let (lower, upper) = (case.lower.lent(), case.upper.lent());
        let known = laid(&RULES, &lower, &upper).ok()?;
        let mut rooms = (vec![0; known.words.len()], vec![0; known.text.len()]);
        let said = Proved.lay(&lower, &upper, &mut rooms.0, &mut rooms.1);
        if said != (0, known.words.len() / WORDS, known.text.len()) || rooms != (known.words, known.text) {
            return None;
        }
        let keys = [&case.lower, &case.upper].map(|table| table.words.chunks(WORDS).filter(|row| row[0] == 10).count());
        let [laying, second, reading] = self.turns(case, rooms);
        Some(Overlaid { keys: keys.iter().sum(), laying, reading: case.docs.as_ref().map(|_| reading), second })
    }

    /// The shortest times of laying, of the second overlay, and of reading both documents, if there are any.
    fn turns(&mut self, case: &Case, (mut rows, mut bytes): (Vec<u32>, Vec<u8>)) -> [f64; 3] {
        let (lower, upper) = (case.lower.lent(), case.upper.lent());
        let mut times = [Shortest::default(), Shortest::default(), Shortest::default()];
        let Bench { clock, machine, table, room, .. } = self;
        for round in 1..=MANY {
            let [laying, second, reading] = &mut times;
            laying.turn(machine, *clock, || {
                black_box(Proved.lay(black_box(&lower), black_box(&upper), &mut rows, &mut bytes));
            });
            second.turn(machine, *clock, || {
                black_box(SecondLays.lay(black_box(&lower), black_box(&upper), &mut rows, &mut bytes));
            });
            if let Some(docs) = &case.docs {
                reading.turn(machine, *clock, || {
                    for doc in docs {
                        let _ = black_box(Proved.read(black_box(doc.as_bytes()), table, room));
                    }
                });
            }
            let all = times.iter().map(|time| time.all).sum::<f64>();
            if round >= FEW && all > LONG_ENOUGH || all > TOO_LONG {
                break;
            }
        }
        times.map(|time| time.a_call)
    }
}

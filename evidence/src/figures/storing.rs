//! What storing a table and loading it take beside reading the document.

use super::{Bench, FEW, LONG_ENOUGH, MANY};
use crate::clock::Shortest;
use crate::compare::storing::Stores;
use crate::compare::{Reader, Said};
use crate::documents::shapes::SHAPES;
use crate::documents::{keys, Rng};
use crate::proved::Proved;
use crate::second::questions::Lent;
use crate::second::stored::{load, loaded, stored};
use crate::second::WORDS;
use std::hint::black_box;

/// Documents of about these lengths.
const SIZES: [usize; 4] = [1_000, 2_000, 8_000, 32_000];
/// Shapes of small tokens, on which loading is at least twice as fast as reading, in all but the shortest documents; on all
/// others it is faster.
const SMALL_TOKENS: [&str; 4] =
    ["flat object of short keys", "array of small records", "inline integer array", "realistic profile"];
const TWICE: f64 = 2.0;
const FASTER: f64 = 1.0;
/// What seems to be too slow is measured so many times: a machine that others use too makes a time longer, never shorter.
const TIMES: usize = 3;

/// Documents of one form.
pub struct Case {
    pub name: &'static str,
    /// The shortest first, and how many times as fast as reading each loading has to be.
    pub docs: Vec<(Vec<u8>, f64)>,
}

/// Every shape in several lengths, and keys, many and chosen to cost the most.
pub fn cases() -> Vec<Case> {
    let shape = |&(name, shape): &(&'static str, fn(&mut Rng, usize) -> String)| {
        let least = |size| if size > SIZES[0] && SMALL_TOKENS.contains(&name) { TWICE } else { FASTER };
        let docs = SIZES.map(|size| (shape(&mut Rng::new(1), size).into_bytes(), least(size))).to_vec();
        Case { name, docs }
    };
    let chosen = [
        ("short keys", keys::short()),
        ("keys of one chain", keys::of_one_chain(keys::SOME)),
        ("keys of one mark and one chain", keys::of_one_mark_and_chain(keys::SOME)),
        ("keys of 200 bytes that share their last 32", keys::of_one_end(keys::SOME)),
    ];
    let keyed = |(name, doc): (_, String)| Case { name, docs: vec![(doc.into_bytes(), FASTER)] };
    SHAPES.iter().map(shape).chain(chosen.into_iter().map(keyed)).collect()
}

/// The shortest times in seconds: of reading a document, of storing its table, of loading that, and of the second loading.
#[derive(Clone, Copy)]
pub struct Stored {
    /// Of the document, and of its stored form.
    pub bytes: [usize; 2],
    pub reading: f64,
    pub storing: f64,
    pub loading: f64,
    pub second: f64,
}

impl Stored {
    /// How many times as fast loading is.
    pub fn times(&self) -> f64 {
        self.reading / self.loading
    }
}

impl Bench {
    /// The times of a document; measured again where loading seems to be less than so many times as fast as reading.
    pub fn stored_fast(&mut self, doc: &[u8], least: f64) -> Option<Stored> {
        let mut best = self.stored(doc)?;
        for _ in 1..TIMES {
            if best.times() >= least {
                break;
            }
            best = self.stored(doc)?;
        }
        Some(best)
    }

    /// A document is read, its table stored, and that loaded, again and again. Nothing if it is refused, or if something is
    /// stored or loaded otherwise than by the second functions.
    pub fn stored(&mut self, doc: &[u8]) -> Option<Stored> {
        let Said { number: 0, values: [rows, bytes, _] } = self.proved(doc) else { return None };
        let (table, text) = (self.table[..rows * WORDS].to_vec(), self.room[..bytes].to_vec());
        let lent = Lent { table: &table, rows, text: &text };
        let (form, mut out) = (stored(&lent).ok()?, vec![0; 1 << 17]);
        let known = loaded(&form).ok()?;
        let mut rooms = (vec![0; table.len()], vec![0; text.len()]);
        let said = (Proved.store(&lent, &mut out), Proved.load(&form, &mut rooms.0, &mut rooms.1));
        let same = out[..form.len()] == form && rooms == (known.words, known.text);
        if said != ((0, form.len()), (0, rows, bytes)) || !same {
            return None;
        }
        let mut times = [Shortest::default(), Shortest::default(), Shortest::default(), Shortest::default()];
        let Bench { clock, machine, table, room, .. } = self;
        for round in 1..=MANY {
            let [reading, storing, loading, second] = &mut times;
            reading.turn(machine, *clock, || {
                let _ = black_box(Proved.read(black_box(doc), table, room));
            });
            storing.turn(machine, *clock, || {
                black_box(Proved.store(black_box(&lent), &mut out));
            });
            loading.turn(machine, *clock, || {
                black_box(Proved.load(black_box(&form), table, room));
            });
            second.turn(machine, *clock, || {
                black_box(load(black_box(&form), table, room));
            });
            if round >= FEW && times.iter().map(|time| time.all).sum::<f64>() > LONG_ENOUGH {
                break;
            }
        }
        let [reading, storing, loading, second] = times.map(|time| time.a_call);
        Some(Stored { bytes: [doc.len(), form.len()], reading, storing, loading, second })
    }
}

//! Compares storing and loading with the second ones: their numbers and values, every byte of outputs, and every word and
//! byte of targets, in rooms of interesting sizes; and what was stored is loaded, what was loaded stored.

pub mod run;
pub mod told;

use super::targets::{expected, rooms, Targets};
use super::{first_wrong, writing::same_but_spans, GUARD};
use crate::documents::Rng;
use crate::second::questions::{Lent, BADROW};
use crate::second::sound::used;
use crate::second::stored::{self, lent, loaded, stored, Loaded, Told, BADFORM};
use crate::second::{Given, MOST, ROWS, TEXT, WORDS};
use crate::stored::{Item, SOURCES};
use crate::tables::Table;

/// What is under test.
pub trait Stores {
    /// 0 and the bytes stored; TEXT and the bytes needed; BADROW and 0.
    fn store(&self, lent: &Lent, out: &mut [u8]) -> (u32, usize);
    /// 0, rows and text bytes; ROWS or TEXT, the need and 0; BADFORM, 0 and 0.
    fn load(&self, stored: &[u8], table: &mut [u32], text: &mut [u8]) -> Told;
}

impl Stores for Box<dyn Stores> {
    fn store(&self, lent: &Lent, out: &mut [u8]) -> (u32, usize) {
        (**self).store(lent, out)
    }

    fn load(&self, stored: &[u8], table: &mut [u32], text: &mut [u8]) -> Told {
        (**self).load(stored, table, text)
    }
}

/// The second storing and loading.
pub struct SecondStores;

impl Stores for SecondStores {
    fn store(&self, lent: &Lent, out: &mut [u8]) -> (u32, usize) {
        stored::store(lent, out)
    }

    fn load(&self, bytes: &[u8], table: &mut [u32], text: &mut [u8]) -> Told {
        stored::load(bytes, table, text)
    }
}

/// What was met: answers in all rooms, what is known from the making, and what went there and back.
pub const NAMES: [&str; 9] = [
    "stored",
    "BADROW",
    "too short an output",
    "loaded",
    "BADFORM",
    "ROWS",
    "too short a text room",
    "known from the making",
    "there and back",
];

/// How many items there were, and how often each of `NAMES` and of `SOURCES` was met.
#[derive(Default, Clone)]
pub struct Tally {
    pub items: usize,
    pub met: [usize; NAMES.len()],
    pub sources: [usize; SOURCES.len()],
}

impl Tally {
    pub fn add(&mut self, other: &Tally) {
        self.items += other.items;
        self.met.iter_mut().zip(other.met).for_each(|(sum, more)| *sum += more);
        self.sources.iter_mut().zip(other.sources).for_each(|(sum, more)| *sum += more);
    }

    /// An answer of storing, or of loading.
    fn count(&mut self, number: u32, loading: bool) {
        self.met[match (number, loading) {
            (0, false) => 0,
            (BADROW, false) => 1,
            (TEXT, false) => 2,
            (0, true) => 3,
            (BADFORM, true) => 4,
            (ROWS, true) => 5,
            (TEXT, true) => 6,
            (number, _) => unreachable!("the second functions say {number}"),
        }] += 1;
    }
}

#[derive(Default)]
pub struct Comparer {
    targets: Targets,
    out: Vec<u8>,
    old: Vec<u8>,
    pub tally: Tally,
}

impl Comparer {
    /// The first difference, in words.
    pub fn difference(&mut self, stores: &dyn Stores, item: &Item, rng: &mut Rng) -> Option<String> {
        self.tally.items += 1;
        self.tally.sources[item.source() as usize] += 1;
        match item {
            Item::Table { table, known, .. } => self.of_table(stores, table, known.as_ref(), rng),
            Item::Bytes { bytes, known, .. } => self.of_bytes(stores, bytes, known.as_ref(), rng),
        }
    }

    /// A table is stored in many outputs, and its form loaded as the same table, but for spans.
    fn of_table(
        &mut self,
        stores: &dyn Stores,
        table: &Table,
        known: Option<&Result<Vec<u8>, u32>>,
        rng: &mut Rng,
    ) -> Option<String> {
        let meant = stored(&table.lent());
        self.tally.met[7] += usize::from(known.is_some());
        if known.is_some_and(|known| *known != meant) {
            return Some("the second storing gives other than the table was made for".into());
        }
        let differs =
            outputs(&meant, rng).into_iter().find_map(|room| self.stored(stores, &table.lent(), &meant, room));
        let form = match (differs, meant) {
            (None, Ok(form)) => form,
            (differs, _) => return differs,
        };
        self.tally.met[8] += 1;
        let back = match loaded(&form) {
            Ok(back) => back,
            Err(BADFORM) if form.len() > MOST => return self.loaded(stores, &form, &Err(BADFORM), Some(rng)),
            Err(number) => return Some(format!("what was stored is loaded as {number}")),
        };
        let given = Given { words: back.words.clone(), text: back.text.clone(), escapes: 0 };
        if !used(&table.lent(), None).is_some_and(|used| same_but_spans(&table.lent(), used, &given)) {
            return Some("what was stored is loaded as another table".into());
        }
        self.loaded(stores, &form, &Ok(back), None)
    }

    /// Bytes are loaded in many rooms, and what was loaded is stored as the same bytes.
    fn of_bytes(
        &mut self,
        stores: &dyn Stores,
        bytes: &[u8],
        known: Option<&Result<Loaded, u32>>,
        rng: &mut Rng,
    ) -> Option<String> {
        let meant = loaded(bytes);
        self.tally.met[7] += usize::from(known.is_some());
        if known.is_some_and(|known| *known != meant) {
            return Some("the second loading gives other than the bytes were made for".into());
        }
        let differs = self.loaded(stores, bytes, &meant, Some(rng));
        match (differs, meant) {
            (None, Ok(loaded)) => {
                self.tally.met[8] += 1;
                self.stored(stores, &lent(&loaded), &Ok(bytes.to_vec()), bytes.len())
            }
            (differs, _) => differs,
        }
    }

    /// The first difference of storing, in an output of so many bytes.
    fn stored(
        &mut self,
        stores: &dyn Stores,
        lent: &Lent,
        meant: &Result<Vec<u8>, u32>,
        room: usize,
    ) -> Option<String> {
        let (expected, new): (_, &[u8]) = match meant {
            Err(number) => ((*number, 0), &[]),
            Ok(form) if form.len() > room.min(MOST) => ((TEXT, form.len()), &[]),
            Ok(form) => ((0, form.len()), form),
        };
        self.tally.count(expected.0, false);
        for i in self.old.len()..room + GUARD {
            self.old.push((i as u8).wrapping_mul(29) ^ 0xC6);
        }
        self.out.clear();
        self.out.extend_from_slice(&self.old[..room + GUARD]);
        let said = stores.store(lent, &mut self.out[..room]);
        let what = if said != expected {
            format!("expected {expected:?}, got {said:?}")
        } else {
            let i = first_wrong(&self.out, new, &self.old)?;
            format!("byte {i} of {} is {}", new.len(), self.out[i])
        };
        Some(format!("with {room} bytes lent for output: {what}"))
    }

    /// The first difference of loading, in exact rooms, or in many.
    fn loaded(
        &mut self,
        stores: &dyn Stores,
        bytes: &[u8],
        meant: &Result<Loaded, u32>,
        rng: Option<&mut Rng>,
    ) -> Option<String> {
        let exact = || vec![meant.as_ref().map_or((WORDS, 9), |loaded| (loaded.words.len(), loaded.text.len()))];
        for room in rng.map_or_else(exact, |rng| rooms(meant, rng)) {
            self.tally.count(expected(meant, room).0, true);
            let what = self.targets.difference(meant, room, |table, text| stores.load(bytes, table, text));
            if what.is_some() {
                return what;
            }
        }
        None
    }
}

/// Exact, one byte short, empty, larger and random outputs.
fn outputs(meant: &Result<Vec<u8>, u32>, rng: &mut Rng) -> Vec<usize> {
    match meant {
        Err(_) => vec![rng.below(40)],
        Ok(form) => {
            let length = form.len();
            vec![length, length - 1, 0, length + 1 + rng.below(40), rng.below(length)]
        }
    }
}

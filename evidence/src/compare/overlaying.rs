//! Compares an overlay with the second one: its number, both values beside it, and every word and byte of both targets, in
//! rooms of interesting sizes.

pub mod run;
pub mod told;

use super::targets::{expected, rooms, Room, Targets};
use crate::documents::Rng;
use crate::overlays::{Pair, SOURCES};
use crate::second::overlay::{self, laid, Laid, Told, CLASH, RULES};
use crate::second::questions::{Lent, BADROW};
use crate::second::{ROWS, TEXT};

/// What is under test: 0, rows and text bytes; ROWS or TEXT, the need and 0; BADROW or CLASH, 0 and 0.
pub trait Lays {
    fn lay(&self, lower: &Lent, upper: &Lent, table: &mut [u32], text: &mut [u8]) -> Told;
}

impl Lays for Box<dyn Lays> {
    fn lay(&self, lower: &Lent, upper: &Lent, table: &mut [u32], text: &mut [u8]) -> Told {
        (**self).lay(lower, upper, table, text)
    }
}

/// The second overlay.
pub struct SecondLays;

impl Lays for SecondLays {
    fn lay(&self, lower: &Lent, upper: &Lent, table: &mut [u32], text: &mut [u8]) -> Told {
        overlay::overlay(lower, upper, table, text)
    }
}

/// What was met: answers in all rooms, and what is known from the making.
pub const NAMES: [&str; 6] = ["laid", "ROWS", "TEXT", "BADROW", "CLASH", "known from the making"];

/// How many pairs there were, in how many rooms, and how often each of `NAMES` and of `SOURCES` was met.
#[derive(Default, Clone)]
pub struct Tally {
    pub pairs: usize,
    pub rooms: usize,
    pub met: [usize; NAMES.len()],
    pub sources: [usize; SOURCES.len()],
}

impl Tally {
    pub fn add(&mut self, other: &Tally) {
        self.pairs += other.pairs;
        self.rooms += other.rooms;
        self.met.iter_mut().zip(other.met).for_each(|(sum, more)| *sum += more);
        self.sources.iter_mut().zip(other.sources).for_each(|(sum, more)| *sum += more);
    }

    fn count(&mut self, number: u32) {
        self.rooms += 1;
        self.met[match number {
            0 => 0,
            ROWS => 1,
            TEXT => 2,
            BADROW => 3,
            CLASH => 4,
            number => unreachable!("the second overlay says {number}"),
        }] += 1;
    }
}

#[derive(Default)]
pub struct Comparer {
    targets: Targets,
    pub tally: Tally,
}

impl Comparer {
    /// The first difference, in words.
    pub fn difference(&mut self, lays: &dyn Lays, pair: &Pair, rng: &mut Rng) -> Option<String> {
        self.tally.pairs += 1;
        self.tally.sources[pair.source as usize] += 1;
        self.tally.met[5] += usize::from(pair.known.is_some());
        let [lower, upper] = pair.lent();
        let meant = laid(&RULES, &lower, &upper);
        if pair.known.as_ref().is_some_and(|known| *known != meant) {
            return Some("the second overlay gives other than the pair was made for".into());
        }
        rooms(&meant, rng).into_iter().find_map(|room| self.in_room(lays, [&lower, &upper], &meant, room))
    }

    /// The first difference in such rooms.
    pub fn in_room(
        &mut self,
        lays: &dyn Lays,
        [lower, upper]: [&Lent; 2],
        meant: &Result<Laid, u32>,
        room: Room,
    ) -> Option<String> {
        self.tally.count(expected(meant, room).0);
        self.targets.difference(meant, room, |table, text| lays.lay(lower, upper, table, text))
    }
}

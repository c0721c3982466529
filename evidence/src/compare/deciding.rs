//! Compares an upgrade decision with the second one: its number, and the decision told beside it.

pub mod run;
pub mod told;

use crate::second::decide::{decide, Decided};
use crate::second::questions::Lent;
use crate::sheets::{Pair, SOURCES};

/// What is under test: 0 and the decision's number, or 14 or 15 and 0.
pub trait Decider {
    fn decide(&self, sheet: &Lent, installed: &Lent) -> (u32, u32);
}

impl Decider for Box<dyn Decider> {
    fn decide(&self, sheet: &Lent, installed: &Lent) -> (u32, u32) {
        (**self).decide(sheet, installed)
    }
}

/// The second decision.
pub struct SecondDecider;

impl Decider for SecondDecider {
    fn decide(&self, sheet: &Lent, installed: &Lent) -> (u32, u32) {
        told(decide(sheet, installed))
    }
}

/// An answer as the C interface has it.
pub fn told(decided: Decided) -> (u32, u32) {
    decided.map_or_else(|number| (number, 0), |decision| (0, decision as u32))
}

/// What the answers are called, and what is known from the making.
pub const NAMES: [&str; 6] = ["install", "keep", "blocked", "BADSHEET", "BADINST", "known from the making"];

/// How many pairs there were, and how often each of `NAMES` and of `SOURCES` was met.
#[derive(Default, Clone)]
pub struct Tally {
    pub pairs: usize,
    pub met: [usize; NAMES.len()],
    pub sources: [usize; SOURCES.len()],
}

impl Tally {
    pub fn add(&mut self, other: &Tally) {
        self.pairs += other.pairs;
        self.met.iter_mut().zip(other.met).for_each(|(sum, more)| *sum += more);
        self.sources.iter_mut().zip(other.sources).for_each(|(sum, more)| *sum += more);
    }

    fn count(&mut self, pair: &Pair, meant: Decided) {
        self.pairs += 1;
        self.sources[pair.source as usize] += 1;
        self.met[5] += usize::from(pair.known.is_some());
        self.met[match told(meant) {
            (0, decision) => decision as usize - 1,
            (number, _) => number as usize - 11,
        }] += 1;
    }
}

/// The first difference, in words.
pub fn difference(decider: &dyn Decider, pair: &Pair, tally: &mut Tally) -> Option<String> {
    let (sheet, installed) = (pair.sheet.lent(), pair.installed.lent());
    let meant = decide(&sheet, &installed);
    tally.count(pair, meant);
    if let Some(known) = pair.known.filter(|known| *known != meant) {
        return Some(format!("the second decision is {meant:?}, and the pair was made for {known:?}"));
    }
    let (expected, said) = (told(meant), decider.decide(&sheet, &installed));
    (said != expected).then(|| format!("expected {} and {}, got {} and {}", expected.0, expected.1, said.0, said.1))
}

//! A run over streams of pairs, each in a thread of its own, until one differs or all were tried.

use super::{Comparer, Lays, Tally};
use crate::compare::streams::{each_stream, PARTS};
use crate::documents::Rng;
use crate::overlays::borders::borders;
use crate::overlays::stream::Stream;
use crate::overlays::Pair;
use std::sync::atomic::{AtomicBool, Ordering::Relaxed};

/// A pair that differs.
pub struct Difference {
    pub pair: Box<Pair>,
    pub what: String,
    /// How many pairs its stream had, with this one.
    pub pairs: usize,
}

/// The tally of all pairs, or one that differs.
pub fn run<L: Lays>(make: impl Fn() -> L + Sync, seed: u64, pairs: usize) -> Result<Tally, Difference> {
    let stop = AtomicBool::new(false);
    let tallies = each_stream(|part| {
        let seed = seed.wrapping_mul(PARTS as u64).wrapping_add(part as u64);
        one_stream(&make(), seed, part, pairs.div_ceil(PARTS), &stop)
    })?;
    let mut all = Tally::default();
    tallies.iter().for_each(|tally| all.add(tally));
    Ok(all)
}

/// The borders first, in the first stream.
fn one_stream(lays: &dyn Lays, seed: u64, part: usize, pairs: usize, stop: &AtomicBool) -> Result<Tally, Difference> {
    let (mut stream, mut comparer, mut rng) = (Stream::new(seed), Comparer::default(), Rng::new(!seed));
    let mut known = if part == 0 { borders() } else { Vec::new() };
    for i in 0..pairs {
        let pair = known.pop().unwrap_or_else(|| stream.pair());
        if let Some(what) = comparer.difference(lays, &pair, &mut rng) {
            stop.store(true, Relaxed);
            return Err(Difference { pair: Box::new(pair), what, pairs: i + 1 });
        }
        if stop.load(Relaxed) {
            break;
        }
    }
    Ok(comparer.tally)
}

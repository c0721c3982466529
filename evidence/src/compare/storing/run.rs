//! A run over streams of items, each in a thread of its own, until one differs or all were tried.

use super::{Comparer, Stores, Tally};
use crate::compare::streams::{each_stream, PARTS};
use crate::documents::Rng;
use crate::stored::borders::borders;
use crate::stored::stream::Stream;
use crate::stored::Item;
use std::sync::atomic::{AtomicBool, Ordering::Relaxed};

/// An item that differs.
pub struct Difference {
    pub item: Box<Item>,
    pub what: String,
    /// How many items its stream had, with this one.
    pub items: usize,
}

/// The tally of all items, or one that differs.
pub fn run<S: Stores>(make: impl Fn() -> S + Sync, seed: u64, items: usize) -> Result<Tally, Difference> {
    let stop = AtomicBool::new(false);
    let tallies = each_stream(|part| {
        let seed = seed.wrapping_mul(PARTS as u64).wrapping_add(part as u64);
        one_stream(&make(), seed, part, items.div_ceil(PARTS), &stop)
    })?;
    let mut all = Tally::default();
    tallies.iter().for_each(|tally| all.add(tally));
    Ok(all)
}

/// The borders first, in the first stream.
fn one_stream(
    stores: &dyn Stores,
    seed: u64,
    part: usize,
    items: usize,
    stop: &AtomicBool,
) -> Result<Tally, Difference> {
    let (mut stream, mut comparer, mut rng) = (Stream::new(seed), Comparer::default(), Rng::new(!seed));
    let mut known = if part == 0 { borders() } else { Vec::new() };
    for i in 0..items {
        let item = known.pop().unwrap_or_else(|| stream.item());
        if let Some(what) = comparer.difference(stores, &item, &mut rng) {
            stop.store(true, Relaxed);
            return Err(Difference { item: Box::new(item), what, items: i + 1 });
        }
        if stop.load(Relaxed) {
            break;
        }
    }
    Ok(comparer.tally)
}

//! A run over streams of tables, each in a thread of its own, until one differs or all were tried.

use super::{Comparer, Tally, Writer};
use crate::compare::streams::{each_stream, PARTS};
use crate::documents::Rng;
use crate::tables::borders::borders;
use crate::tables::stream::Stream;
use crate::tables::Table;
use std::sync::atomic::{AtomicBool, Ordering::Relaxed};

/// A table that differs.
pub struct Difference {
    pub table: Table,
    pub what: String,
    /// How many tables its stream had, with this one.
    pub tables: usize,
}

/// The tally of all tables, or one that differs.
pub fn run<W: Writer>(make: impl Fn() -> W + Sync, seed: u64, tables: usize) -> Result<Tally, Difference> {
    let stop = AtomicBool::new(false);
    let tallies = each_stream(|part| {
        let seed = seed.wrapping_mul(PARTS as u64).wrapping_add(part as u64);
        one_stream(&mut make(), seed, part, tables.div_ceil(PARTS), &stop)
    })?;
    let mut all = Tally::default();
    tallies.iter().for_each(|tally| all.add(tally));
    Ok(all)
}

/// The borders first, in the first stream.
fn one_stream(
    writer: &mut dyn Writer,
    seed: u64,
    part: usize,
    tables: usize,
    stop: &AtomicBool,
) -> Result<Tally, Difference> {
    let (mut stream, mut comparer, mut rng) = (Stream::new(seed), Comparer::default(), Rng::new(seed));
    let mut known = if part == 0 { borders() } else { Vec::new() };
    for i in 0..tables {
        let table = known.pop().unwrap_or_else(|| stream.table());
        if let Some(what) = comparer.difference(writer, &table, &mut rng) {
            stop.store(true, Relaxed);
            return Err(Difference { table, what, tables: i + 1 });
        }
        if stop.load(Relaxed) {
            break;
        }
    }
    Ok(comparer.tally)
}

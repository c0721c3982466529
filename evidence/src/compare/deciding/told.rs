//! The comparison of a decision as a program tells it: every deliberate fault is found, and nothing else differs.

use super::run::{run, Difference};
use super::{difference, Decider, Tally, NAMES};
use crate::compare::faults::deciding::faults;
use crate::hex;
use crate::second::WORDS;
use crate::sheets::borders::large;
use crate::sheets::{Source, SOURCES};
use crate::tables::Table;

/// From so many pairs on, a run must have met each of `NAMES`, and of `SOURCES` but the borders, thousands of times.
const ENOUGH: usize = 1_000_000;
const THOUSANDS: usize = 2_000;
/// Behind a pair that differs, so many other runs look for a smaller one.
const SMALLER: u64 = 50;

/// Whether the same run finds every deliberate fault.
pub fn finds_faults(seed: u64, pairs: usize) -> bool {
    let (mut missed, names) = (0, faults());
    for (i, (name, _)) in names.iter().enumerate() {
        match run(|| faults().swap_remove(i).1, seed, pairs) {
            Err(difference) => println!("fault found after {:>6} pairs: {name}", difference.pairs),
            Ok(_) => {
                missed += 1;
                println!("FAULT NOT FOUND: {name}");
            }
        }
    }
    println!("{} faults of deciding, {missed} not found", names.len());
    missed == 0
}

/// Whether the decision differs nowhere.
pub fn differs_nowhere<D: Decider>(make: impl Fn() -> D + Sync, seed: u64, pairs: usize) -> bool {
    let decider = make();
    if let Some(what) = large().find_map(|pair| difference(&decider, &pair, &mut Tally::default())) {
        println!("DIFFERENCE at the most digits that a room counts for: {what}");
        return false;
    }
    match run(&make, seed, pairs) {
        Ok(tally) => report(&tally),
        Err(difference) => {
            show(&difference);
            let others = (1..=SMALLER).filter_map(|more| run(&make, seed + more, pairs).err());
            others.min_by_key(size).iter().for_each(show);
            false
        }
    }
}

/// Prints the counts; false if the run was long enough to meet everything thousands of times, and did not.
fn report(tally: &Tally) -> bool {
    let list = |names: &[&str], counts: &[usize]| {
        let counts: Vec<_> = names.iter().zip(counts).map(|(name, count)| format!("{name} {count}")).collect();
        counts.join(", ")
    };
    println!("decisions: {}", list(&NAMES, &tally.met));
    println!("pairs: {}", list(&SOURCES, &tally.sources));
    println!("the proved decision: {} pairs, no difference", tally.pairs);
    let but_borders = &tally.sources[Source::Border as usize + 1..];
    let seldom = tally.met.iter().chain(but_borders).any(|count| *count < THOUSANDS);
    if tally.pairs >= ENOUGH && seldom {
        println!("met too seldom");
        return false;
    }
    true
}

fn size(difference: &Difference) -> usize {
    let of = |table: &Table| table.words.len() + table.text.len();
    of(&difference.pair.sheet) + of(&difference.pair.installed)
}

/// Prints a failing pair, a line for each row.
fn show(difference: &Difference) {
    println!("DIFFERENCE {}", difference.what);
    for (name, table) in [("sheet", &difference.pair.sheet), ("installed", &difference.pair.installed)] {
        println!("  {name}: {} rows, text {}", table.rows, hex::show(&table.text));
        for row in table.words.chunks(WORDS) {
            println!("  {row:?}");
        }
    }
}

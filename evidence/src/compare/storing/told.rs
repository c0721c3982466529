//! The comparison of storing and loading as a program tells it: every deliberate fault is found, and nothing else differs.

use super::run::{run, Difference};
use super::{Comparer, Stores, NAMES};
use crate::compare::faults::storing::faults;
use crate::documents::Rng;
use crate::hex;
use crate::second::WORDS;
use crate::stored::borders::longest;
use crate::stored::{Item, Source, SOURCES};

/// From so many items on, a run must have met each of `NAMES`, and of `SOURCES` but the borders, so often.
const ENOUGH: usize = 1_000_000;
const OFTEN: usize = 1_000;
/// Behind an item that differs, so many other runs look for a smaller one.
const SMALLER: u64 = 50;

/// Whether the same run finds every deliberate fault.
pub fn finds_faults(seed: u64, items: usize) -> bool {
    let (mut missed, names) = (0, faults());
    for (i, (name, _)) in names.iter().enumerate() {
        match run(|| faults().swap_remove(i).1, seed, items) {
            Err(difference) => println!("fault found after {:>6} items: {name}", difference.items),
            Ok(_) => {
                missed += 1;
                println!("FAULT NOT FOUND: {name}");
            }
        }
    }
    println!("{} faults of storing and loading, {missed} not found", names.len());
    missed == 0
}

/// Whether storing and loading differ nowhere.
pub fn differs_nowhere<S: Stores>(make: impl Fn() -> S + Sync, seed: u64, items: usize) -> bool {
    if let Some(what) = in_longest(&make()) {
        println!("DIFFERENCE {what}");
        return false;
    }
    match run(&make, seed, items) {
        Ok(tally) => report(&tally),
        Err(difference) => {
            show(&difference);
            let others = (1..=SMALLER).filter_map(|more| run(&make, seed + more, items).err());
            others.min_by_key(|difference| difference.item.size()).iter().for_each(show);
            false
        }
    }
}

/// The difference on the longest stored forms, and on those of a byte more.
fn in_longest(stores: &dyn Stores) -> Option<String> {
    let (mut comparer, mut rng) = (Comparer::default(), Rng::new(1));
    longest().find_map(|item| {
        let what = comparer.difference(stores, &item, &mut rng);
        what.map(|what| format!("in one of the longest stored forms: {what}"))
    })
}

/// Prints the counts; false if the run was long enough to meet everything often, and did not.
fn report(tally: &super::Tally) -> bool {
    let list = |names: &[&str], counts: &[usize]| {
        let counts: Vec<_> = names.iter().zip(counts).map(|(name, count)| format!("{name} {count}")).collect();
        counts.join(", ")
    };
    println!("stored forms: {}", list(&NAMES, &tally.met));
    println!("items: {}", list(&SOURCES, &tally.sources));
    let rooms: usize = tally.met[..7].iter().sum();
    println!("the proved storing and loading: {} items in {rooms} rooms, no difference", tally.items);
    let but_borders = &tally.sources[Source::Border as usize + 1..];
    let seldom = tally.met.iter().chain(but_borders).any(|count| *count < OFTEN);
    if tally.items >= ENOUGH && seldom {
        println!("met too seldom");
        return false;
    }
    true
}

/// Prints a failing table, a line for each row, or failing bytes.
fn show(difference: &Difference) {
    println!("DIFFERENCE {} ({})", difference.what, SOURCES[difference.item.source() as usize]);
    match &*difference.item {
        Item::Bytes { bytes, .. } => println!("  {}", hex::show(bytes)),
        Item::Table { table, .. } => {
            println!("  {} rows, text {}", table.rows, hex::show(&table.text));
            table.words.chunks(WORDS).for_each(|row| println!("  {row:?}"));
        }
    }
}

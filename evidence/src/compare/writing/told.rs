//! The comparison of a writer as a program tells it: every deliberate fault is found, and nothing else differs.

use super::run::{run, Difference};
use super::{limits, Comparer, Tally, Writer, NAMES};
use crate::compare::faults::writing::{faults, passed_over};
use crate::documents::Rng;
use crate::hex;
use crate::second::sound::Test;
use crate::second::WORDS;
use crate::tables::borders::large;
use crate::tables::small;

/// From so many tables on, a run must have met each of `NAMES` thousands of times.
const ENOUGH: usize = 300_000;
const THOUSANDS: usize = 2_000;
/// Behind a table that differs, so many other runs look for a smaller one.
const SMALLER: u64 = 50;

/// Whether the same run finds every deliberate fault.
pub fn finds_faults(seed: u64, tables: usize) -> bool {
    let (mut missed, names) = (0, faults());
    for (i, (name, _)) in names.iter().enumerate() {
        match run(|| faults().swap_remove(i).1, seed, tables) {
            Err(difference) => println!("fault found after {:>6} tables: {name}", difference.tables),
            Ok(_) => {
                missed += 1;
                println!("FAULT NOT FOUND: {name}");
            }
        }
    }
    if in_large(&mut passed_over(Test::Most)).is_none() {
        missed += 1;
        println!("FAULT NOT FOUND: more than 16,777,216 rows or bytes of text");
    }
    println!("{} faults of writing, {missed} not found", names.len() + 1);
    missed == 0
}

/// Whether the writer differs nowhere.
pub fn differs_nowhere<W: Writer>(make: impl Fn() -> W + Sync, seed: u64, tables: usize) -> bool {
    let mut writer = make();
    let large = in_large(&mut writer).or_else(|| limits::difference(writer.questions()?));
    if let Some(what) = large.or_else(|| in_small(&mut writer)) {
        println!("DIFFERENCE {what}");
        return false;
    }
    match run(&make, seed, tables) {
        Ok(tally) => report(&tally),
        Err(difference) => {
            show(&difference);
            (1..=SMALLER)
                .filter_map(|more| run(&make, seed + more, tables).err())
                .min_by_key(size)
                .iter()
                .for_each(show);
            false
        }
    }
}

/// The difference at the limits of rows and text bytes.
fn in_large(writer: &mut dyn Writer) -> Option<String> {
    let (mut comparer, mut rng) = (Comparer::default(), Rng::new(1));
    large().find_map(|table| {
        let what = comparer.difference(writer, &table, &mut rng);
        what.map(|what| format!("{} rows and {} bytes: {what}", table.rows, table.text.len()))
    })
}

/// The difference on all tables of one row and of two.
fn in_small(writer: &mut dyn Writer) -> Option<String> {
    let (mut comparer, mut rng) = (Comparer::default(), Rng::new(1));
    let differs = small::all().find_map(|table| {
        let what = comparer.difference(writer, &table, &mut rng);
        what.map(|what| format!("{:?}, text {}: {what}", table.words, hex::show(&table.text)))
    });
    if differs.is_none() {
        let Tally { tables, met } = &comparer.tally;
        println!("all {tables} tables of one or two rows: sound {}, not sound {}", met[0], met[1]);
    }
    differs
}

/// Prints the counts; false if the run was long enough to meet everything thousands of times, and did not.
fn report(tally: &Tally) -> bool {
    let counts: Vec<_> = NAMES.iter().zip(tally.met).map(|(name, count)| format!("{name} {count}")).collect();
    println!("tables: {}", counts.join(", "));
    println!("the proved writer and test of soundness: {} tables, no difference", tally.tables);
    let seldom = tally.tables >= ENOUGH && tally.met.iter().any(|count| *count < THOUSANDS);
    if seldom {
        println!("met too seldom");
    }
    !seldom
}

fn size(difference: &Difference) -> usize {
    difference.table.words.len() + difference.table.text.len()
}

/// Prints a failing table, a line for each row.
fn show(difference: &Difference) {
    let Difference { table, what, .. } = difference;
    println!("DIFFERENCE {what}\n  {} rows, text {}", table.rows, hex::show(&table.text));
    for row in table.words.chunks(WORDS) {
        println!("  {row:?}");
    }
}

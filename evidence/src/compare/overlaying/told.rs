//! The comparison of an overlay as a program tells it: every deliberate fault is found, and nothing else differs.

use super::run::{run, Difference};
use super::{Comparer, Lays, NAMES};
use crate::compare::faults::overlaying::faults;
use crate::hex;
use crate::overlays::borders::{many, nulls, texts, NULLS};
use crate::overlays::{Pair, Source, SOURCES};
use crate::second::questions::Lent;
use crate::second::{MOST, ROWS, WORDS};

/// From so many pairs on, a run must have met each of `NAMES`, and of `SOURCES` but the borders, so often.
const ENOUGH: usize = 400_000;
const OFTEN: usize = 1_000;
/// Behind a pair that differs, so many other runs look for a smaller one.
const SMALLER: u64 = 50;
/// Objects of so many keys are tried at the end: about as many as are brought together at once, and twice that.
const MANY: [usize; 4] = [16, 4_127, 4_640, 9_300];

/// Whether the same run finds every deliberate fault.
pub fn finds_faults(seed: u64, pairs: usize) -> bool {
    let (mut missed, names) = (0, faults());
    for (i, (name, _)) in names.iter().enumerate() {
        match run(|| faults().swap_remove(i).1, seed, pairs) {
            Err(difference) => println!("fault found after {:>6} pairs: {name}", difference.pairs),
            Ok(_) => {
                missed += 1;
                println!("FAULT NOT FOUND: {name}");
            }
        }
    }
    println!("{} faults of overlays, {missed} not found", names.len());
    missed == 0
}

/// Whether the overlay differs nowhere.
pub fn differs_nowhere<L: Lays>(make: impl Fn() -> L + Sync, seed: u64, pairs: usize) -> bool {
    if let Some(what) = large(&make()) {
        println!("DIFFERENCE of a large overlay: {what}");
        return false;
    }
    match run(&make, seed, pairs) {
        Ok(tally) => report(&tally),
        Err(difference) => {
            show(&difference);
            let others = (1..=SMALLER).filter_map(|more| run(&make, seed + more, pairs).err());
            others.min_by_key(|difference| size(&difference.pair)).iter().for_each(show);
            false
        }
    }
}

/// Objects of thousands of keys, and results at the most that rooms count for; each in just the words and bytes it needs.
fn large(lays: &dyn Lays) -> Option<String> {
    let mut comparer = Comparer::default();
    let mut exact = |pair: Pair| {
        let [lower, upper] = pair.lent();
        let known = pair.known.as_ref()?;
        let room = known.as_ref().map_or((0, 0), |laid| (laid.words.len(), laid.text.len()));
        comparer.in_room(lays, [&lower, &upper], known, room)
    };
    let keys = MANY.iter().flat_map(|count| many(*count)).find_map(&mut exact);
    keys.or_else(|| [MOST, MOST + 1].into_iter().map(texts).find_map(&mut exact)).or_else(|| rows(lays))
}

/// Two tables with more rows together than a table counts for: the true need is told, however much is lent.
fn rows(lays: &dyn Lays) -> Option<String> {
    let (words, rows) = nulls(NULLS);
    let lent = |text| Lent { table: &words, rows, text };
    let need = 2 * rows - 1;
    let mut table = vec![0; need * WORDS];
    let said = lays.lay(&lent(b"a"), &lent(b"b"), &mut table, &mut [0; 9]);
    (said != (ROWS, need, 0)).then(|| format!("a result of {need} rows is told as {said:?}"))
}

/// Prints the counts; false if the run was long enough to meet everything often, and did not.
fn report(tally: &super::Tally) -> bool {
    let list = |names: &[&str], counts: &[usize]| {
        let counts: Vec<_> = names.iter().zip(counts).map(|(name, count)| format!("{name} {count}")).collect();
        counts.join(", ")
    };
    println!("overlays: {}", list(&NAMES, &tally.met));
    println!("pairs: {}", list(&SOURCES, &tally.sources));
    println!("the proved overlay: {} pairs in {} rooms, no difference", tally.pairs, tally.rooms);
    let but_borders = &tally.sources[Source::Border as usize + 1..];
    let seldom = tally.met.iter().chain(but_borders).any(|count| *count < OFTEN);
    if tally.pairs >= ENOUGH && seldom {
        println!("met too seldom");
        return false;
    }
    true
}

fn size(pair: &Pair) -> usize {
    pair.lent().iter().map(|lent| lent.table.len() + lent.text.len()).sum()
}

/// Prints a failing pair, a line for each row.
fn show(difference: &Difference) {
    println!("DIFFERENCE {} ({})", difference.what, SOURCES[difference.pair.source as usize]);
    for (name, lent) in ["lower", "upper"].into_iter().zip(difference.pair.lent()) {
        println!("  {name}: {} rows, text {}", lent.rows, hex::show(lent.text));
        for row in lent.table.chunks(WORDS) {
            println!("  {row:?}");
        }
    }
}

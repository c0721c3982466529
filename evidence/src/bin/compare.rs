//! Compares the proved reader with the second reader, and shows that deliberate faults are found:
//! `compare [--seed N] [--documents N] [--tables N] [--pairs N] [--overlays N] [--forms N] [--vectors FILE]`. As long as
//! one likes, with a count every ten seconds, and without the faults: `compare --soak [--seconds N] ..`. With the feature
//! `written`, the writer and the test of soundness too, on tables; with `decided`, the upgrade decision, on pairs of a
//! sheet and an installed version; with `overlaid`, the overlay, on pairs of tables; with `stored`, storing and loading,
//! on tables and stored forms. Large documents are tried beside all of them.

use evidence::compare::run::{run, Difference, Limits};
use evidence::compare::{faults, forms, large, places, Comparer, Tally};
use evidence::documents::shrink::shrink;
use evidence::documents::Rng;
use evidence::proved::Proved;
use evidence::tables::Table;
use evidence::{hex, vectors};
use std::process::ExitCode;

const NUMBERS: [&str; 12] =
    ["accepted", "LONG", "CHAR", "SYNTAX", "DEEP", "END", "REPEAT", "ROWS", "TEXT", "BADROW", "NONE", "NOTINT"];
const KINDS: [&str; 10] = ["null", "false", "true", "integer", "float", "string", "bytes", "array", "object", "key"];

/// How many documents a run has.
const DOCUMENTS: usize = 1_100_000;
/// And how many tables.
const TABLES: usize = 600_000;
/// And how many pairs of a sheet and an installed version.
const PAIRS: usize = 2_200_000;
/// And how many pairs of tables, one laid over the other.
const OVERLAYS: usize = 400_000;
/// And how many tables to be stored and forms to be loaded.
const FORMS: usize = 1_000_000;
/// From so many documents on, it must have met every number, kind and place of rows and form of backslash thousands of times.
const ENOUGH: usize = 1_000_000;
const THOUSANDS: usize = 2_000;

struct Options {
    limits: Limits,
    tables: usize,
    pairs: usize,
    overlays: usize,
    forms: usize,
    soak: bool,
}

fn options() -> Result<Options, String> {
    let limits = Limits { seed: 1, vectors: Vec::new(), documents: DOCUMENTS, seconds: None };
    let mut options = Options { limits, tables: TABLES, pairs: PAIRS, overlays: OVERLAYS, forms: FORMS, soak: false };
    let mut words = std::env::args().skip(1);
    while let Some(word) = words.next() {
        if word == "--soak" {
            options.soak = true;
            options.limits.documents = usize::MAX;
            continue;
        }
        let value = words.next().ok_or(format!("{word} needs a value"))?;
        let number = value.parse().map_err(|_| format!("{value} is no number"));
        match word.as_str() {
            "--seed" => options.limits.seed = number?,
            "--documents" => options.limits.documents = number? as usize,
            "--tables" => options.tables = number? as usize,
            "--pairs" => options.pairs = number? as usize,
            "--overlays" => options.overlays = number? as usize,
            "--forms" => options.forms = number? as usize,
            "--seconds" => options.limits.seconds = Some(number?),
            "--vectors" => options.limits.vectors = vectors::load(&value)?,
            _ => return Err(format!("{word} is no option")),
        }
    }
    Ok(options)
}

/// Prints a failing document and a small one that fails as well.
fn show(difference: &Difference) {
    let Difference { doc, what, .. } = difference;
    println!("DIFFERENCE {what}\n  {}", hex::show(doc));
    let mut comparer = Comparer::default();
    let mut how = what.clone();
    let small = shrink(doc, |doc| {
        let meant = comparer.expected(doc);
        let what = (0..8).find_map(|seed| comparer.difference(&mut Proved, doc, &meant, true, seed));
        how = what.clone().unwrap_or(std::mem::take(&mut how));
        what.is_some()
    });
    println!("  shrunk: {how}\n  {} {:?}", hex::show(&small), String::from_utf8_lossy(&small));
}

/// Whether the same run finds every deliberate fault.
fn finds_faults(limits: &Limits) -> bool {
    let mut missed = 0;
    let faults = faults::faults();
    for (i, (name, _)) in faults.iter().enumerate() {
        match run(|| faults::faults().swap_remove(i).1, limits, |_| ()) {
            Err(difference) => println!("fault found after {:>6} documents: {name}", difference.documents),
            Ok(_) => {
                missed += 1;
                println!("FAULT NOT FOUND: {name}");
            }
        }
    }
    println!("{} faults, {missed} not found", faults.len());
    missed == 0
}

/// Prints the counts; false if the run was long enough to meet everything thousands of times, and did not.
fn report(tally: &Tally) -> bool {
    let list = |pairs: &[(&str, usize)]| {
        let pairs: Vec<String> = pairs.iter().map(|(name, count)| format!("{name} {count}")).collect();
        pairs.join(", ")
    };
    let numbers: Vec<_> = NUMBERS.into_iter().zip(tally.numbers).collect();
    let kinds: Vec<_> = KINDS.into_iter().zip(tally.kinds.into_iter().skip(1)).collect();
    let forms: Vec<_> = forms::NAMES.into_iter().zip(tally.forms).collect();
    let places: Vec<_> = places::NAMES.into_iter().zip(tally.places).collect();
    let all = numbers.iter().chain(&kinds).chain(&forms).chain(&places);
    let rare: Vec<_> = all.filter(|pair| pair.1 < THOUSANDS).copied().collect();
    let answers: usize = tally.numbers[..=8].iter().sum();
    println!("answers: {}", list(&numbers));
    println!("rows: {}", list(&kinds));
    println!("backslashes: {}", list(&forms));
    println!("rows by place: {}", list(&places));
    println!(
        "the proved reader: {} documents, {answers} answers, {} questions, no difference",
        tally.documents, tally.asked
    );
    if tally.documents < ENOUGH || rare.is_empty() {
        return true;
    }
    println!("met too seldom: {}", list(&rare));
    false
}

/// Whether the writer and the test of soundness differ nowhere on so many tables, and every fault in them is found.
#[cfg(feature = "written")]
fn written(seed: u64, tables: usize, soak: bool) -> bool {
    use evidence::compare::writing::told;
    let found = soak || told::finds_faults(seed, tables);
    told::differs_nowhere(|| Proved, seed, tables) && found
}

#[cfg(not(feature = "written"))]
fn written(_: u64, tables: usize, _: bool) -> bool {
    println!("no writer yet: {tables} tables are not tried");
    true
}

/// Whether the upgrade decision differs nowhere on so many pairs, and every fault in it is found.
#[cfg(feature = "decided")]
fn decided(seed: u64, pairs: usize, soak: bool) -> bool {
    use evidence::compare::deciding::told;
    let found = soak || told::finds_faults(seed, pairs);
    told::differs_nowhere(|| Proved, seed, pairs) && found
}

#[cfg(not(feature = "decided"))]
fn decided(_: u64, pairs: usize, _: bool) -> bool {
    println!("no upgrade decision yet: {pairs} pairs are not tried");
    true
}

/// Whether the overlay differs nowhere on so many pairs, and every fault in it is found.
#[cfg(feature = "overlaid")]
fn overlaid(seed: u64, pairs: usize, soak: bool) -> bool {
    use evidence::compare::overlaying::told;
    let found = soak || told::finds_faults(seed, pairs);
    told::differs_nowhere(|| Proved, seed, pairs) && found
}

#[cfg(not(feature = "overlaid"))]
fn overlaid(_: u64, pairs: usize, _: bool) -> bool {
    println!("no overlay yet: {pairs} pairs are not tried");
    true
}

/// Whether storing and loading differ nowhere on so many items, and every fault in them is found.
#[cfg(feature = "stored")]
fn stored(seed: u64, items: usize, soak: bool) -> bool {
    use evidence::compare::storing::told;
    let found = soak || told::finds_faults(seed, items);
    told::differs_nowhere(|| Proved, seed, items) && found
}

#[cfg(not(feature = "stored"))]
fn stored(_: u64, items: usize, _: bool) -> bool {
    println!("no stored form yet: {items} tables and forms are not tried");
    true
}

/// Whether large documents are read, written and stored as by the second functions, and faults that only they show are found.
fn large(soak: bool) -> bool {
    let found = soak || large_faults();
    large::differs_nowhere(|| Proved, &beside_reading) && found
}

/// Whether every fault that only large documents show is found.
fn large_faults() -> bool {
    let faults = faults::large::faults();
    let missed = (0..faults.len()).filter(|&i| {
        let difference = large::run(|| faults::large::faults().swap_remove(i).1, &|_, _| None).err();
        match &difference {
            Some(difference) => println!("fault found in a large document ({}): {}", difference.name, faults[i].0),
            None => println!("FAULT NOT FOUND: {}", faults[i].0),
        }
        difference.is_none()
    });
    let missed = missed.count();
    println!("{} faults in large documents, {missed} not found", faults.len());
    missed == 0
}

/// How writing, storing or loading a table differs.
#[cfg(feature = "stored")]
fn beside_reading(table: &Table, rng: &mut Rng) -> Option<String> {
    use evidence::compare::{storing, writing};
    use evidence::stored::{Item, Source};
    let item = Item::Table { table: table.clone(), source: Source::Tables, known: None };
    let stored = storing::Comparer::default().difference(&Proved, &item, rng);
    stored.or_else(|| writing::Comparer::default().difference(&mut Proved, table, rng))
}

#[cfg(not(feature = "stored"))]
fn beside_reading(_: &Table, _: &mut Rng) -> Option<String> {
    None
}

fn main() -> ExitCode {
    let Options { limits, tables, pairs, overlays, forms, soak } = match options() {
        Ok(options) => options,
        Err(error) => {
            eprintln!("compare: {error}");
            return ExitCode::from(2);
        }
    };
    println!("seed {}", limits.seed);
    let wrote = written(limits.seed, tables, soak);
    let decided = decided(limits.seed, pairs, soak);
    let overlaid = overlaid(limits.seed, overlays, soak);
    let stored = stored(limits.seed, forms, soak);
    let large = large(soak);
    let found = soak || finds_faults(&limits);
    let watch = |count| {
        if soak {
            println!("{count} documents, no difference so far")
        }
    };
    let same = match run(|| Proved, &limits, watch) {
        Ok(tally) => report(&tally),
        Err(difference) => {
            show(&difference);
            false
        }
    };
    ExitCode::from(u8::from(!wrote || !decided || !overlaid || !stored || !large || !found || !same))
}

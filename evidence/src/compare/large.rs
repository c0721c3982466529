//! Large documents, one by one: each is read in many rooms, and the table of one that is accepted goes on to whatever else is
//! under test.

use super::run::differs;
use super::stream::Document;
use super::streams::{each_stream, PARTS};
use super::{Comparer, Reader, Tally};
use crate::documents::large::{large, Large};
use crate::documents::Rng;
use crate::second::Second;
use crate::tables::Table;

/// What is asked of a table beside its reading: the first difference, in words.
pub type More = dyn Fn(&Table, &mut Rng) -> Option<String> + Sync;

/// A document that differs, by its name.
pub struct Difference {
    pub name: String,
    pub what: String,
}

/// The tally of all large documents, or one that differs. They are dealt out to the threads in turn.
pub fn run<R: Reader>(make: impl Fn() -> R + Sync, more: &More) -> Result<Tally, Difference> {
    let tallies = each_stream(|part| {
        let (mut reader, mut comparer) = (make(), Comparer::default());
        for (name, doc) in large().into_iter().skip(part).step_by(PARTS) {
            if let Some(what) = difference(&mut reader, &mut comparer, doc(), more) {
                return Err(Difference { name, what });
            }
        }
        Ok(comparer.tally)
    })?;
    let mut all = Tally::default();
    tallies.iter().for_each(|tally| all.add(tally));
    Ok(all)
}

fn difference(reader: &mut dyn Reader, comparer: &mut Comparer, made: Large, more: &More) -> Option<String> {
    let document = Document { doc: made.doc, meant: made.meant, every_room: false };
    let seed = document.doc.len() as u64;
    differs(reader, &document, comparer, seed).or_else(|| {
        let table = Second::new().given(&document.doc).ok()?.into();
        more(&table, &mut Rng::new(seed))
    })
}

/// Whether nothing differs; what does is printed.
pub fn differs_nowhere<R: Reader>(make: impl Fn() -> R + Sync, more: &More) -> bool {
    match run(make, more) {
        Ok(tally) => {
            let refused: usize = tally.numbers[1..=6].iter().sum();
            println!("large documents: {}, {} accepted, {refused} refused", tally.documents, tally.numbers[0]);
            true
        }
        Err(Difference { name, what }) => {
            println!("DIFFERENCE in a large document ({name}): {what}");
            false
        }
    }
}

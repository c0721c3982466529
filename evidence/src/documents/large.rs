//! Documents of 100 KB up to the longest and one byte more: of every shape, hostile ones, of exactly the longest length, objects
//! of many keys with and without a repeated one, grown ones, and those refused near their end.

mod keys;

use super::grow::{grow_wide, Grown, Meant};
use super::hostile::HOSTILE;
use super::shapes::SHAPES;
use super::Rng;
use crate::second::{Refusal, LONG, LONGEST};

/// A document, and what it means where that is known apart from the second reader.
pub struct Large {
    pub doc: Vec<u8>,
    pub meant: Option<Meant>,
}

/// How one of them is made.
pub type Make = Box<dyn Fn() -> Large + Send + Sync>;

/// Sizes of the shapes.
const SIZES: [usize; 2] = [150_000, LONGEST];
/// Sizes and nesting of those that are grown.
const GROWN: [(usize, usize); 8] =
    [(100_000, 2), (150_000, 32), (250_000, 4), (400_000, 3), (400_000, 1), (600_000, 6), (900_000, 2), (1_000_000, 5)];
/// How many are changed near their end.
const CHANGED: u64 = 24;

fn named(name: impl Into<String>, make: impl Fn() -> Large + Send + Sync + 'static) -> (String, Make) {
    (name.into(), Box::new(make))
}

fn unknown(doc: Vec<u8>) -> Large {
    Large { doc, meant: None }
}

/// All of them by name.
pub fn large() -> Vec<(String, Make)> {
    let shapes = SIZES.into_iter().flat_map(|size| {
        SHAPES.iter().map(move |&(name, shape)| {
            named(format!("{name}, {size}"), move || unknown(shape(&mut Rng::new(1), size).into_bytes()))
        })
    });
    let hostile = HOSTILE.iter().map(|&(name, shape)| named(name, move || unknown(shape(LONGEST))));
    let grown = (0..).zip(GROWN).map(|(seed, (size, nesting))| {
        named(format!("grown to {size} bytes, {nesting} deep"), move || grown(seed, size, nesting))
    });
    let changed = (0..CHANGED).map(|seed| named(format!("changed near its end, {seed}"), move || changed(seed)));
    shapes.chain(hostile).chain(longest()).chain(grown).chain(changed).chain(keys::keys()).collect()
}

/// Of each shape a document of exactly the longest length, filled up with line feeds, and one of a byte more.
fn longest() -> impl Iterator<Item = (String, Make)> {
    SHAPES.iter().flat_map(|&(name, shape)| {
        let filled = move |size: usize| {
            let mut doc = shape(&mut Rng::new(2), LONGEST).into_bytes();
            doc.resize(size, b'\n');
            doc
        };
        let too_long = move || Large { doc: filled(LONGEST + 1), meant: Some(Err(Refusal { number: LONG, place: 0 })) };
        [
            named(format!("{name}, of the longest length"), move || unknown(filled(LONGEST))),
            named(format!("{name}, one byte longer"), too_long),
        ]
    })
}

fn grown(seed: u64, size: usize, nesting: usize) -> Large {
    let mut rng = Rng::new(seed);
    loop {
        let Grown { doc, meant } = grow_wide(&mut rng, size, nesting);
        // Now and then the root is a small value.
        if (size / 2..=LONGEST).contains(&doc.len()) {
            return Large { doc, meant: Some(meant) };
        }
    }
}

/// A document of one of the shapes with another byte near its end.
fn changed(seed: u64) -> Large {
    let mut rng = Rng::new(seed);
    let (size, shape) = (100_000 + rng.below(LONGEST - 100_000), SHAPES[rng.below(SHAPES.len())].1);
    let mut doc = shape(&mut rng, size).into_bytes();
    let at = doc.len() - 1 - rng.below(2_000);
    match rng.below(4) {
        0 => doc[at] = b" \n:-\"\x7F\x80#0["[rng.below(10)],
        1 => drop(doc.remove(at)),
        2 => doc.insert(at, b" \n:-\"\x7F\x80#0["[rng.below(10)]),
        _ => doc.truncate(at),
    }
    unknown(doc)
}

//! Tables to be stored and bytes to be loaded: trees made beside their stored form, sound or not, contents about as wide as
//! one field holds and wider, in parts, forms damaged in every byte, head and tag, fields in the wrong place, and random ones.

pub mod borders;
pub mod damage;
mod fields;
pub mod made;
pub mod stream;
pub mod wide;

use crate::second::stored::Loaded;
use crate::tables::Table;

/// Where an item comes from.
#[derive(Clone, Copy, PartialEq, Eq, Debug)]
pub enum Source {
    Border,
    Tables,
    MadeTable,
    WideTable,
    Made,
    Faulty,
    Deep,
    Keys,
    Wide,
    Parts,
    Changed,
    Cut,
    Behind,
    Lengths,
    Tags,
    Fields,
    Random,
}

/// What the sources are called, in their order.
pub const SOURCES: [&str; 17] = [
    "borders",
    "tables, sound and damaged",
    "tables made with their form",
    "tables of wide contents",
    "forms made",
    "forms of trees with one fault",
    "forms down to 33 levels",
    "forms of many keys",
    "forms of wide contents",
    "parts cut otherwise",
    "one byte changed",
    "cut short",
    "bytes behind",
    "lengths that lie",
    "other tags",
    "fields in other places",
    "random fields",
];

/// What is tried, with its answer where that is known from how it was made.
#[derive(Clone, Debug)]
pub enum Item {
    /// A table to be stored: its stored form, or BADROW.
    Table { table: Table, source: Source, known: Option<Result<Vec<u8>, u32>> },
    /// Bytes to be loaded: their rows and text, or BADFORM.
    Bytes { bytes: Vec<u8>, source: Source, known: Option<Result<Loaded, u32>> },
}

impl Item {
    pub fn source(&self) -> Source {
        match self {
            Item::Table { source, .. } | Item::Bytes { source, .. } => *source,
        }
    }

    /// How much there is of it.
    pub fn size(&self) -> usize {
        match self {
            Item::Table { table, .. } => table.words.len() + table.text.len(),
            Item::Bytes { bytes, .. } => bytes.len(),
        }
    }
}

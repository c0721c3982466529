//! Pairs of tables to try the overlay on: trees made beside each other with what they give, as tables and as documents
//! give them, clashes of every kind, deep and wide ones, the same one twice, roots that are no objects, and damaged ones.

pub mod borders;
pub mod made;
pub mod stream;

use crate::second::overlay::Laid;
use crate::second::questions::Lent;
use crate::tables::Table;

/// Where a pair comes from.
#[derive(Clone, Copy, PartialEq, Eq, Debug)]
pub enum Source {
    Border,
    Made,
    Clashing,
    Written,
    Deep,
    Wide,
    Apart,
    Same,
    WrongRoot,
    DamagedLower,
    DamagedUpper,
    BothDamaged,
}

/// What the sources are called, in their order.
pub const SOURCES: [&str; 12] = [
    "borders",
    "made beside each other",
    "made to clash",
    "as documents give them",
    "down to 32 levels",
    "objects of many keys",
    "no key in both",
    "the same memory twice",
    "a root that is no object",
    "damaged lower ones",
    "damaged upper ones",
    "both damaged",
];

/// A table and one that is laid over it.
#[derive(Clone, Debug)]
pub struct Pair {
    pub lower: Table,
    /// The lower itself where there is none.
    pub upper: Option<Table>,
    pub source: Source,
    /// The result, BADROW or CLASH, where it is known from how the pair was made.
    pub known: Option<Result<Laid, u32>>,
}

impl Pair {
    /// Both as they are lent; twice the same memory where the lower is the upper.
    pub fn lent(&self) -> [Lent<'_>; 2] {
        [self.lower.lent(), self.upper.as_ref().unwrap_or(&self.lower).lent()]
    }
}

/// What a table is as a result.
pub fn laid(table: Table) -> Laid {
    Laid { words: table.words, text: table.text }
}

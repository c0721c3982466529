//! The numbers of document 01 that sentences name too, each in one place.

macro_rules! longest {
    () => {
        1_048_576
    };
}

macro_rules! nesting {
    () => {
        32
    };
}

pub(crate) use {longest, nesting};

/// The most bytes a document may have.
pub const LONGEST: usize = longest!();
/// The most bytes that a stored form may have.
pub const LONGEST_STORED: usize = 16_777_216;
/// The most bytes of one field; a longer content is stored in parts of so many bytes, and an end.
pub(crate) const WIDEST: usize = 65_535;
/// The tag of a part.
pub(crate) const PART: u8 = 11;
/// The most containers one inside another.
pub const NESTING: usize = nesting!();
/// A lent room counts for no more than this: a table for so many rows, a text room and an output for so many bytes.
pub const MOST: usize = 16_777_216;
/// What the words of a row are called, in their order.
pub const NAMES: [&str; 9] = ["kind", "from", "to", "start", "end", "parent", "next", "line", "column"];
/// Words of a row.
pub const WORDS: usize = NAMES.len();
/// A version has 1 to so many places.
pub const PLACES: usize = 8;
/// How many bytes an image has.
pub const IMAGE: usize = 32;

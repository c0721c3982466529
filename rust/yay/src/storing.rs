//! Storing a table as tagged fields, and loading it again.

use crate::limits::LONGEST_STORED;
use crate::refusal::Number;
use crate::sys;
use crate::tree::Tree;
use std::error::Error;
use std::fmt;

/// Why a table is not stored.
#[derive(Clone, Copy, PartialEq, Eq, Hash, Debug)]
pub enum Unstored {
    /// The table is not sound: no document gives it.
    Unsound,
    /// The output lent is too short; one of more than [`LONGEST_STORED`] bytes counts for no more than these.
    Short {
        /// How many bytes are needed.
        needed: usize,
    },
}

impl Unstored {
    /// Its number: [`Number::BadRow`] or [`Number::Text`].
    pub fn number(self) -> Number {
        match self {
            Unstored::Unsound => Number::BadRow,
            Unstored::Short { .. } => Number::Text,
        }
    }
}

impl fmt::Display for Unstored {
    fn fmt(&self, out: &mut fmt::Formatter) -> fmt::Result {
        write!(out, "{} ({}): ", self.number().name(), self.number().code())?;
        match self {
            Unstored::Unsound => write!(out, "the table is not sound: no document gives it"),
            Unstored::Short { needed } => write!(out, "the output lent has too few bytes, {needed} are needed"),
        }
    }
}

impl Error for Unstored {}

/// Why stored bytes are not loaded.
#[derive(Clone, Copy, PartialEq, Eq, Hash, Debug)]
pub enum Unloaded {
    /// The bytes are no sound table's stored form; [`form_fault`](crate::form_fault) says why. This is tested first.
    Form,
    /// The table lent has too few words.
    Rows {
        /// How many rows are needed, of [`WORDS`](crate::WORDS) words each.
        needed: usize,
    },
    /// The text room lent is too short.
    Text {
        /// How many bytes are needed.
        needed: usize,
    },
}

impl Unloaded {
    /// Its number: [`Number::BadForm`], [`Number::Rows`] or [`Number::Text`].
    pub fn number(self) -> Number {
        match self {
            Unloaded::Form => Number::BadForm,
            Unloaded::Rows { .. } => Number::Rows,
            Unloaded::Text { .. } => Number::Text,
        }
    }
}

impl fmt::Display for Unloaded {
    fn fmt(&self, out: &mut fmt::Formatter) -> fmt::Result {
        match self {
            Unloaded::Form => self.number().fmt(out),
            Unloaded::Rows { needed } => write!(out, "{}, {needed} rows are needed", self.number()),
            Unloaded::Text { needed } => write!(out, "{}, {needed} are needed", self.number()),
        }
    }
}

impl Error for Unloaded {}

/// Stores a sound table as tagged fields into the output lent; how many bytes it took. Those behind them, and of a refusal
/// all, are as they were.
///
/// A field is one byte tag, the row's kind, two bytes length, high byte first, and the content: a text, nothing for null,
/// false and true, or the children's fields. A content over 65,535 bytes stands in parts of so many, with the tag 11, and an
/// end. One tree has one stored form, without spans, lines and columns.
///
/// ```
/// use yay::{store, Document, Unstored};
/// let document = Document::read(b"# Doors\n[1, 22]\n")?;
/// let mut out = [0; 64];
/// let count = store(&document.tree(), &mut out)?;
/// assert_eq!(out[..count], [8, 0, 9, 4, 0, 1, b'1', 4, 0, 2, b'2', b'2']);
/// assert_eq!(store(&document.tree(), &mut out[..9]), Err(Unstored::Short { needed: count }));
/// # Ok::<(), Box<dyn std::error::Error>>(())
/// ```
pub fn store(tree: &Tree, out: &mut [u8]) -> Result<usize, Unstored> {
    let (code, count) = sys::store(tree.lent(), out);
    if code == 0 {
        return Ok(count);
    }
    Err(match Number::given(code) {
        Number::Text => Unstored::Short { needed: count },
        _ => Unstored::Unsound,
    })
}

/// The same in memory of its own, which is long enough for every form that can be loaded: three bytes a row, the text, and
/// the heads of parts, which are fewer than one byte in 512.
pub fn stored(tree: &Tree) -> Result<Vec<u8>, Unstored> {
    let bytes = tree.rows().saturating_mul(3).saturating_add(tree.text_room().len());
    let mut out = vec![0; bytes.saturating_add(bytes / 512).min(LONGEST_STORED)];
    let count = store(tree, &mut out)?;
    out.truncate(count);
    Ok(out)
}

/// Loads stored bytes into the table and the text room lent; those behind the rows and the text, and of a refusal all, are
/// as they were.
///
/// It gives the same kinds, texts and nesting. The span of a row is its field in the stored bytes, from the first tag to the
/// end of the content; lines and columns are 0. What was loaded is sound, and is stored as the same bytes.
///
/// ```
/// use yay::{load, Place, Row, Unloaded, ROOT, WORDS};
/// let stored = [8, 0, 9, 4, 0, 1, b'1', 4, 0, 2, b'2', b'2'];
/// let (mut table, mut text) = ([0; 8 * WORDS], [0; 8]);
/// let tree = load(&stored, &mut table, &mut text)?;
/// assert_eq!((tree.count(ROOT)?, tree.text(Row(2))?, tree.span(Row(2))?), (2, &b"22"[..], Place(7)..Place(12)));
/// assert_eq!(load(&stored[..9], &mut table, &mut text).unwrap_err(), Unloaded::Form);
/// assert_eq!(load(&stored, &mut [], &mut []).unwrap_err(), Unloaded::Rows { needed: 3 });
/// # Ok::<(), Box<dyn std::error::Error>>(())
/// ```
pub fn load<'a>(stored: &[u8], table: &'a mut [u32], text: &'a mut [u8]) -> Result<Tree<'a>, Unloaded> {
    match sys::load(stored, table, text) {
        (0, rows, bytes) => Ok(Tree::new(table, rows, &text[..bytes])),
        (code, needed, _) => Err(match Number::given(code) {
            Number::Rows => Unloaded::Rows { needed },
            Number::Text => Unloaded::Text { needed },
            _ => Unloaded::Form,
        }),
    }
}

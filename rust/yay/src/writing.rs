//! Writing a table as a document of the house style, and whether a table is sound.

use crate::limits::{longest, LONGEST};
use crate::refusal::Number;
use crate::sys;
use crate::tree::Tree;
use std::error::Error;
use std::fmt;

/// Why a table is not written.
#[derive(Clone, Copy, PartialEq, Eq, Debug)]
pub enum Unwritten {
    /// The table is not sound: no document gives it.
    Unsound,
    /// The document would have more than [`LONGEST`] bytes.
    Long,
    /// The output lent is too short.
    Short {
        /// How many bytes are needed.
        needed: usize,
    },
}

impl Unwritten {
    /// Its number: [`Number::BadRow`], [`Number::Long`] or [`Number::Text`].
    pub fn number(self) -> Number {
        match self {
            Unwritten::Unsound => Number::BadRow,
            Unwritten::Long => Number::Long,
            Unwritten::Short { .. } => Number::Text,
        }
    }
}

impl fmt::Display for Unwritten {
    fn fmt(&self, out: &mut fmt::Formatter) -> fmt::Result {
        write!(out, "{} ({}): ", self.number().name(), self.number().code())?;
        match self {
            Unwritten::Unsound => write!(out, "the table is not sound: no document gives it"),
            Unwritten::Long => {
                write!(out, concat!("written back, the document has more than ", longest!(), " bytes"))
            }
            Unwritten::Short { needed } => write!(out, "the output lent has too few bytes, {needed} are needed"),
        }
    }
}

impl Error for Unwritten {}

/// Whether a table is sound: whether some document, of any length, gives its kinds, texts and nesting, with at most
/// [`NESTING`](crate::NESTING) containers one inside another, no key twice in an object, and at most
/// [`MOST`](crate::MOST) rows and text bytes. Spans, lines and columns are passed over, and so are words behind the rows
/// and bytes behind the texts. What [`read`](crate::read) gives is sound.
///
/// ```
/// use yay::{sound, Tree};
/// assert!(sound(&Tree::new(&[4, 0, 0, 0, 2, 0, 1, 0, 0], 1, b"17")));
/// assert!(!sound(&Tree::new(&[4, 0, 0, 0, 2, 0, 1, 0, 0], 1, b"07")));
/// ```
pub fn sound(tree: &Tree) -> bool {
    match sys::sound(tree.table(), tree.rows(), tree.text_room()) {
        0 => true,
        code => {
            debug_assert_eq!(Number::given(code), Number::BadRow);
            false
        }
    }
}

/// Writes a sound table as a document of the house style into the output lent; how many bytes it took. Those behind
/// them, and of a refusal all, are as they were.
///
/// The house style has block objects and arrays, `[]` and `{}` where empty, an array in an array on one line with all
/// that is below it; strings in double quotes, keys without quotes wherever that is allowed, bytes inline, and two
/// spaces a level. Reading it gives the same kinds, texts and nesting. Comments are not in a table, so they are lost.
///
/// ```
/// use yay::{write, Document, Unwritten};
/// let document = Document::read(b"# Lost.\n{a: 1, 'b c': [[], 'x\\y']}\n")?;
/// let mut out = [0; 64];
/// let count = write(&document.tree(), &mut out)?;
/// assert_eq!(out[..count], *b"a: 1\n\"b c\":\n  - []\n  - \"x\\\\y\"\n");
/// assert_eq!(write(&document.tree(), &mut out[..9]), Err(Unwritten::Short { needed: count }));
/// # Ok::<(), Box<dyn std::error::Error>>(())
/// ```
pub fn write(tree: &Tree, out: &mut [u8]) -> Result<usize, Unwritten> {
    let (code, count) = sys::write(tree.table(), tree.rows(), tree.text_room(), out);
    if code == 0 {
        return Ok(count);
    }
    Err(match Number::given(code) {
        Number::Long => Unwritten::Long,
        Number::Text => Unwritten::Short { needed: count },
        _ => Unwritten::Unsound,
    })
}

/// The same in memory of its own, which is always long enough.
pub fn written(tree: &Tree) -> Result<Vec<u8>, Unwritten> {
    let mut out = vec![0; LONGEST];
    let count = write(tree, &mut out)?;
    out.truncate(count);
    Ok(out)
}

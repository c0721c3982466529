//! Reading into lent rooms, and the order of integers.

use crate::limits::WORDS;
use crate::place::{position, Place};
use crate::refusal::{Number, Refusal};
use crate::sys;
use crate::tree::Tree;
use std::cmp::Ordering;

/// A document read into rooms lent.
#[derive(Clone, Copy, Debug)]
pub struct Accepted<'a> {
    pub tree: Tree<'a>,
    /// How many escapes its quoted keys and strings have. In double quotes each backslash begins one, `\u{41}` too; in
    /// single quotes `\'` and `\\` are one each, and any other backslash stays as itself and is none.
    pub escapes: usize,
}

/// Reads a document into rooms lent. Rows, of [`WORDS`] words each, and text bytes are each fewer than the
/// document's bytes. A refusal leaves both rooms as they were.
///
/// ```
/// let (mut table, mut text) = ([0; 64 * yay::WORDS], [0; 64]);
/// // The document is 'C:\img\\' and LF: one backslash stays as itself, the other two are one escape.
/// let accepted = yay::read(b"'C:\\img\\\\'\n", &mut table, &mut text)?;
/// assert_eq!(accepted.tree.str(yay::ROOT)?, r"C:\img\");
/// assert_eq!(accepted.escapes, 1);
/// # Ok::<(), Box<dyn std::error::Error>>(())
/// ```
pub fn read<'a>(doc: &[u8], table: &'a mut [u32], text: &'a mut [u8]) -> Result<Accepted<'a>, Refusal> {
    match sys::read(doc, table, text) {
        (0, rows, bytes, escapes) => {
            Ok(Accepted { tree: Tree::new(&table[..rows * WORDS], rows, &text[..bytes]), escapes })
        }
        (code, place, ..) => Err(refused(doc, Number::given(code), Place(place))),
    }
}

fn refused(doc: &[u8], number: Number, place: Place) -> Refusal {
    let is_place = !matches!(number, Number::Rows | Number::Text);
    Refusal { number, place, position: is_place.then(|| position(doc, place)) }
}

/// Two integers' texts by numeric order, whatever their length; [`Number::NotInt`] if one is none.
///
/// ```
/// use std::cmp::Ordering;
/// assert_eq!(yay::compare(b"10", b"9"), Ok(Ordering::Greater));
/// assert_eq!(yay::compare(b"-10", b"9"), Ok(Ordering::Less));
/// assert_eq!(yay::compare(b"007", b"9"), Err(yay::Number::NotInt));
/// ```
pub fn compare(left: &[u8], right: &[u8]) -> Result<Ordering, Number> {
    match sys::compare(left, right) {
        (0, order) => Ok(order.cmp(&0)),
        (code, _) => Err(Number::given(code)),
    }
}

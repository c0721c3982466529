//! Tables of rows, whoever made them, and the questions that are asked of them.

use crate::limits::WORDS;
use crate::place::{Place, Position};
use crate::refusal::Number;
use crate::sys;
use std::ops::Range;

/// The number of a row, from 0. A [`Place`] is never taken for one.
#[derive(Clone, Copy, PartialEq, Eq, PartialOrd, Ord, Hash, Debug)]
pub struct Row(pub usize);

/// The root's row.
pub const ROOT: Row = Row(0);

/// The ten kinds of rows.
#[derive(Clone, Copy, PartialEq, Eq, Hash, Debug)]
#[repr(u32)]
pub enum Kind {
    Null = 1,
    False,
    True,
    Integer,
    Float,
    String,
    Bytes,
    Array,
    Object,
    Key,
}

impl Kind {
    const ALL: [(Kind, &'static str); 10] = [
        (Kind::Null, "null"),
        (Kind::False, "false"),
        (Kind::True, "true"),
        (Kind::Integer, "integer"),
        (Kind::Float, "float"),
        (Kind::String, "string"),
        (Kind::Bytes, "bytes"),
        (Kind::Array, "array"),
        (Kind::Object, "object"),
        (Kind::Key, "key"),
    ];

    /// The kind of a number 1 to 10.
    pub fn from_code(code: u32) -> Option<Kind> {
        let index = usize::try_from(code).ok()?.checked_sub(1)?;
        Kind::ALL.get(index).map(|(kind, _)| *kind)
    }

    pub fn name(self) -> &'static str {
        Kind::ALL[self as usize - 1].1
    }

    /// Its name in a sentence, as `an object`.
    pub fn with_article(self) -> String {
        match self {
            Kind::Null | Kind::False | Kind::True | Kind::Bytes => self.name().into(),
            Kind::Integer | Kind::Array | Kind::Object => format!("an {}", self.name()),
            _ => format!("a {}", self.name()),
        }
    }
}

/// A lent table, its row count and its text room. Any words and bytes may be lent: a row that isn't there, or is
/// broken, answers [`Number::BadRow`].
#[derive(Clone, Copy, Debug)]
pub struct Tree<'a> {
    table: &'a [u32],
    rows: usize,
    text: &'a [u8],
}

impl<'a> Tree<'a> {
    pub fn new(table: &'a [u32], rows: usize, text: &'a [u8]) -> Tree<'a> {
        Tree { table, rows, text }
    }

    /// How many rows there are.
    pub fn rows(&self) -> usize {
        self.rows
    }

    /// The text room as lent; after `read`, the document's texts one behind another.
    pub fn text_room(&self) -> &'a [u8] {
        self.text
    }

    /// The whole table as lent.
    pub fn table(&self) -> &'a [u32] {
        self.table
    }

    /// All three as the library takes them.
    pub(crate) fn lent(&self) -> sys::Lent<'a> {
        (self.table, self.rows, self.text)
    }

    /// The words of a row.
    pub fn words(&self, row: Row) -> Result<&'a [u32; WORDS], Number> {
        if row.0 >= self.rows {
            return Err(Number::BadRow);
        }
        let words = row.0.checked_mul(WORDS).and_then(|from| self.table.get(from..from.checked_add(WORDS)?));
        words.and_then(|words| words.try_into().ok()).ok_or(Number::BadRow)
    }

    pub fn kind(&self, row: Row) -> Result<Kind, Number> {
        Kind::from_code(self.words(row)?[0]).ok_or(Number::BadRow)
    }

    /// Where the row stands in the document, or in the stored bytes that were loaded: its first place, and the one after
    /// its last.
    pub fn span(&self, row: Row) -> Result<Range<Place>, Number> {
        let words = self.words(row)?;
        Ok(Place(words[1] as usize)..Place(words[2] as usize))
    }

    /// The line in which the row begins, from 1; 0 in a tree that was loaded or laid over another.
    ///
    /// ```
    /// let document = yay::Document::read("# Cold store\n\"Größe\": [1, 22]\n".as_bytes())?;
    /// let tree = document.tree();
    /// let last = tree.path(yay::ROOT, &["Größe", "1"])?;
    /// assert_eq!((tree.line(last)?, tree.column(last)?), (2, 14));
    /// assert_eq!(tree.position(last)?.to_string(), "2:14");
    /// # Ok::<(), Box<dyn std::error::Error>>(())
    /// ```
    pub fn line(&self, row: Row) -> Result<usize, Number> {
        Ok(self.words(row)?[7] as usize)
    }

    /// The column in which the row begins, from 1, in characters: one of several bytes is one; 0 as the line.
    pub fn column(&self, row: Row) -> Result<usize, Number> {
        Ok(self.words(row)?[8] as usize)
    }

    /// Line and column of the row's first byte, as the table has them.
    pub fn position(&self, row: Row) -> Result<Position, Number> {
        Ok(Position { line: self.line(row)?, column: self.column(row)? })
    }

    /// The row's container; the root's is the root.
    pub fn parent(&self, row: Row) -> Result<Row, Number> {
        Ok(Row(self.words(row)?[5] as usize))
    }

    /// The row after the last descendant.
    pub fn next(&self, row: Row) -> Result<Row, Number> {
        Ok(Row(self.words(row)?[6] as usize))
    }

    /// How many elements an array has, or pairs an object.
    pub fn count(&self, row: Row) -> Result<usize, Number> {
        match self.kind(row)? {
            Kind::Array | Kind::Object => Ok(self.words(row)?[4] as usize),
            _ => Err(Number::BadRow),
        }
    }

    /// The text of an integer, float, string, bytes or key.
    pub fn text(&self, row: Row) -> Result<&'a [u8], Number> {
        match sys::text(self.table, self.rows, self.text, row.0) {
            (0, from, to) => Ok(&self.text[from..to]),
            (code, _, _) => Err(Number::given(code)),
        }
    }

    /// The row of a key's value in an object. The key is given decoded.
    pub fn find(&self, object: Row, key: impl AsRef<[u8]>) -> Result<Row, Number> {
        match sys::find(self.table, self.rows, self.text, object.0, key.as_ref()) {
            (0, value) => Ok(Row(value)),
            (code, _) => Err(Number::given(code)),
        }
    }

    /// The rows of a container's children: an array's elements, an object's keys and values in turn. Of other
    /// rows, and where a row is broken, there are none.
    pub fn children(&self, row: Row) -> Children<'a> {
        let has_children = matches!(self.kind(row), Ok(Kind::Array | Kind::Object));
        let end = if has_children { self.next(row).unwrap_or(row) } else { row };
        Children { tree: *self, at: Row(row.0.saturating_add(1)), end }
    }
}

/// See [`Tree::children`].
#[derive(Clone, Debug)]
pub struct Children<'a> {
    tree: Tree<'a>,
    at: Row,
    end: Row,
}

impl Iterator for Children<'_> {
    type Item = Row;

    fn next(&mut self) -> Option<Row> {
        if self.at >= self.end {
            return None;
        }
        let row = self.at;
        let next = self.tree.next(row).ok().filter(|next| *next > row)?;
        self.at = next;
        Some(row)
    }
}

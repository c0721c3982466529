//! Rows as values of Rust: texts, integers, truth values, and what containers hold.

use crate::refusal::Number;
use crate::tree::{Children, Kind, Row, Tree};
use std::error::Error;
use std::fmt;

/// Why a row is not the value that was asked for.
#[derive(Clone, Copy, PartialEq, Eq, Debug)]
pub enum Mismatch {
    /// The row is not there, or broken.
    Row(Number),
    /// The row is of another kind.
    Kind { wanted: &'static str, found: Kind },
    /// The integer lies outside the range of `i64`; [`Tree::text`] has all its digits.
    Large,
}

impl fmt::Display for Mismatch {
    fn fmt(&self, out: &mut fmt::Formatter) -> fmt::Result {
        match self {
            Mismatch::Row(number) => number.fmt(out),
            Mismatch::Kind { wanted, found } => {
                write!(out, "{wanted} was asked for, and the row is of kind {}", found.name())
            }
            Mismatch::Large => write!(out, "the integer does not fit into 64 bits"),
        }
    }
}

impl Error for Mismatch {}

impl From<Number> for Mismatch {
    fn from(number: Number) -> Mismatch {
        Mismatch::Row(number)
    }
}

/// ```
/// let document = yay::Document::read(b"door:\n  number: 17\n  open: true\n  lamp: \"green\"\n  at: [5, 13]\n")?;
/// let tree = document.tree();
/// let door = tree.find(yay::ROOT, "door")?;
/// assert_eq!(tree.integer(tree.find(door, "number")?)?, 17);
/// assert_eq!(tree.bool(tree.find(door, "open")?)?, true);
/// assert_eq!(tree.str(tree.find(door, "lamp")?)?, "green");
/// for (key, value) in tree.pairs(door)? {
///     println!("{key} is of kind {}", tree.kind(value)?.name());
/// }
/// let at: Result<Vec<i64>, _> = tree.elements(tree.find(door, "at")?)?.map(|row| tree.integer(row)).collect();
/// assert_eq!(at?, [5, 13]);
/// # Ok::<(), Box<dyn std::error::Error>>(())
/// ```
impl<'a> Tree<'a> {
    /// The text of a string or a key.
    pub fn str(&self, row: Row) -> Result<&'a str, Mismatch> {
        self.wanted(row, "a string", |kind| matches!(kind, Kind::String | Kind::Key))?;
        std::str::from_utf8(self.text(row)?).map_err(|_| Mismatch::Row(Number::BadRow))
    }

    /// An integer that fits into 64 bits.
    pub fn integer(&self, row: Row) -> Result<i64, Mismatch> {
        self.wanted(row, "an integer", |kind| kind == Kind::Integer)?;
        let digits = std::str::from_utf8(self.text(row)?).ok();
        digits.and_then(|digits| digits.parse().ok()).ok_or(Mismatch::Large)
    }

    /// `true` or `false`.
    pub fn bool(&self, row: Row) -> Result<bool, Mismatch> {
        self.wanted(row, "true or false", |kind| matches!(kind, Kind::True | Kind::False))?;
        Ok(self.kind(row)? == Kind::True)
    }

    /// The elements of an array.
    pub fn elements(&self, row: Row) -> Result<Children<'a>, Mismatch> {
        self.wanted(row, "an array", |kind| kind == Kind::Array)?;
        Ok(self.children(row))
    }

    /// The keys of an object, decoded, each with its value's row. Where a row is broken the pairs end.
    pub fn pairs(&self, row: Row) -> Result<Pairs<'a>, Mismatch> {
        self.wanted(row, "an object", |kind| kind == Kind::Object)?;
        Ok(Pairs { tree: *self, children: self.children(row) })
    }

    fn wanted(&self, row: Row, wanted: &'static str, is: fn(Kind) -> bool) -> Result<(), Mismatch> {
        let found = self.kind(row)?;
        if is(found) {
            Ok(())
        } else {
            Err(Mismatch::Kind { wanted, found })
        }
    }
}

/// See [`Tree::pairs`].
#[derive(Clone, Debug)]
pub struct Pairs<'a> {
    tree: Tree<'a>,
    children: Children<'a>,
}

impl<'a> Iterator for Pairs<'a> {
    type Item = (&'a str, Row);

    fn next(&mut self) -> Option<(&'a str, Row)> {
        let key = self.children.next()?;
        let value = self.children.next()?;
        let is_key = self.tree.kind(key) == Ok(Kind::Key);
        is_key.then(|| self.tree.str(key).ok()).flatten().map(|key| (key, value))
    }
}

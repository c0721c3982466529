//! The value behind a path: keys of objects, and numbers from 0 in arrays.

use crate::refusal::Number;
use crate::shown::quoted;
use crate::tree::{Kind, Row, Tree};
use std::error::Error;
use std::fmt;

/// A path that leads to no value.
#[derive(Clone, PartialEq, Eq, Debug)]
pub enum Missing {
    /// The container has no such key or element.
    Step {
        /// The steps before.
        path: Vec<Vec<u8>>,
        /// The step that is not there.
        step: Vec<u8>,
        /// What the steps before lead to, and how many elements or pairs it has; of a scalar 0.
        kind: Kind,
        count: usize,
    },
    /// A row is broken.
    Row(Number),
}

impl fmt::Display for Missing {
    fn fmt(&self, out: &mut fmt::Formatter) -> fmt::Result {
        let (path, step, kind, count) = match self {
            Missing::Row(number) => return number.fmt(out),
            Missing::Step { path, step, kind, count } => (path, quoted(step), *kind, *count),
        };
        let steps: Vec<_> = path.iter().map(|step| quoted(step)).collect();
        let whole = if steps.is_empty() { "the document".into() } else { steps.join(" ") };
        let plural = if count == 1 { "" } else { "s" };
        match kind {
            Kind::Object => write!(out, "{whole} has no key {step}; it is an object of {count} pair{plural}"),
            Kind::Array => {
                write!(out, "{whole} has no element {step}; it is an array of {count} element{plural}, from 0")
            }
            _ => write!(out, "{whole} has no {step}; it is no object or array but of kind {}", kind.name()),
        }
    }
}

impl Error for Missing {}

impl From<Number> for Missing {
    fn from(number: Number) -> Missing {
        Missing::Row(number)
    }
}

impl<'a> Tree<'a> {
    /// The row that a path leads to, from a row on; no steps lead to the row itself.
    ///
    /// ```
    /// let document = yay::Document::read(b"aisles:\n  - name: \"A\"\n    doors: [1, 2, 3]\n")?;
    /// let tree = document.tree();
    /// let door = tree.path(yay::ROOT, &["aisles", "0", "doors", "2"])?;
    /// assert_eq!(tree.integer(door)?, 3);
    /// let missing = tree.path(yay::ROOT, &["aisles", "1"]).unwrap_err();
    /// assert_eq!(missing.to_string(), "\"aisles\" has no element \"1\"; it is an array of 1 element, from 0");
    /// # Ok::<(), Box<dyn std::error::Error>>(())
    /// ```
    pub fn path<S: AsRef<[u8]>>(&self, from: Row, steps: &[S]) -> Result<Row, Missing> {
        let mut row = from;
        for (index, step) in steps.iter().enumerate() {
            let step = step.as_ref();
            row = match self.step(row, step)? {
                Some(next) => next,
                None => return Err(self.missing(row, steps[..index].iter().map(AsRef::as_ref), step)?),
            };
        }
        Ok(row)
    }

    /// The row of a key's value, or of an array's element.
    fn step(&self, row: Row, step: &[u8]) -> Result<Option<Row>, Number> {
        match self.kind(row)? {
            Kind::Object => match self.find(row, step) {
                Err(Number::None) => Ok(None),
                found => found.map(Some),
            },
            Kind::Array => Ok(index(step).and_then(|index| self.children(row).nth(index))),
            _ => Ok(None),
        }
    }

    fn missing<'s>(&self, row: Row, path: impl Iterator<Item = &'s [u8]>, step: &[u8]) -> Result<Missing, Number> {
        let kind = self.kind(row)?;
        let count = if matches!(kind, Kind::Array | Kind::Object) { self.count(row)? } else { 0 };
        Ok(Missing::Step { path: path.map(<[u8]>::to_vec).collect(), step: step.to_vec(), kind, count })
    }
}

/// Digits alone: `+1` names no element.
fn index(step: &[u8]) -> Option<usize> {
    let digits = std::str::from_utf8(step).ok().filter(|step| step.bytes().all(|byte| byte.is_ascii_digit()))?;
    digits.parse().ok()
}

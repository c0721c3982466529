//! Laying one tree over another, as a site's profile over the fleet's.

use crate::refusal::Number;
use crate::shown::quoted;
use crate::sys;
use crate::tree::{Kind, Row, Tree, ROOT};
use crate::values::Mismatch;
use crate::writing::sound;
use std::collections::HashMap;
use std::error::Error;
use std::fmt;

/// Why one tree is not laid over another.
#[derive(Clone, Copy, PartialEq, Eq, Hash, Debug)]
pub enum Unlaid {
    /// A table is not sound, or its root is no object. This is tested first.
    Unsound,
    /// A key has an object in one and another value in the other; [`clash`] says which.
    Clash,
    /// The table lent has too few words.
    Rows {
        /// How many rows are needed, of [`WORDS`](crate::WORDS) words each.
        needed: usize,
    },
    /// The text room lent is too short.
    Text {
        /// How many bytes are needed.
        needed: usize,
    },
}

impl Unlaid {
    /// Its number: [`Number::BadRow`], [`Number::Clash`], [`Number::Rows`] or [`Number::Text`].
    pub fn number(self) -> Number {
        match self {
            Unlaid::Unsound => Number::BadRow,
            Unlaid::Clash => Number::Clash,
            Unlaid::Rows { .. } => Number::Rows,
            Unlaid::Text { .. } => Number::Text,
        }
    }
}

impl fmt::Display for Unlaid {
    fn fmt(&self, out: &mut fmt::Formatter) -> fmt::Result {
        match self {
            Unlaid::Unsound => {
                let number = self.number();
                write!(out, "{} ({}): a table is not sound, or its root is no object", number.name(), number.code())
            }
            Unlaid::Clash => self.number().fmt(out),
            Unlaid::Rows { needed } => write!(out, "{}, {needed} rows are needed", self.number()),
            Unlaid::Text { needed } => write!(out, "{}, {needed} are needed", self.number()),
        }
    }
}

impl Error for Unlaid {}

/// Lays the upper tree over the lower into the table and the text room lent; those behind the result's rows and text, and
/// of a refusal all, are as they were.
///
/// A key that one of them has is kept; of one that both have, two objects are laid over each other in the same way, and two
/// other values, arrays among them, are answered by the upper. An object against another value, be it `{}` or null, is a
/// clash. Keys stand in the lower's order, then the upper's new ones in its own. The result has no spans, lines and columns.
///
/// ```
/// use yay::{overlay, Document, Unlaid, WORDS};
/// let fleet = Document::read(b"battery: {low-at: 0.15}\nlamp: 'on'\n")?;
/// let site = Document::read(b"name: 'A'\nbattery: {spare: true}\n")?;
/// let (mut table, mut text) = ([0; 16 * WORDS], [0; 64]);
/// let tree = overlay(&fleet.tree(), &site.tree(), &mut table, &mut text)?;
/// assert_eq!(yay::written(&tree)?, b"battery:\n  low-at: 0.15\n  spare: true\nlamp: \"on\"\nname: \"A\"\n");
/// assert_eq!(overlay(&fleet.tree(), &site.tree(), &mut [], &mut []).unwrap_err(), Unlaid::Rows { needed: 11 });
/// # Ok::<(), Box<dyn std::error::Error>>(())
/// ```
pub fn overlay<'a>(lower: &Tree, upper: &Tree, table: &'a mut [u32], text: &'a mut [u8]) -> Result<Tree<'a>, Unlaid> {
    match sys::overlay(lower.lent(), upper.lent(), table, text) {
        (0, rows, bytes) => Ok(Tree::new(table, rows, &text[..bytes])),
        (code, needed, _) => Err(match Number::given(code) {
            Number::Clash => Unlaid::Clash,
            Number::Rows => Unlaid::Rows { needed },
            Number::Text => Unlaid::Text { needed },
            _ => Unlaid::Unsound,
        }),
    }
}

/// A key that has an object in one of two trees and another value in the other.
#[derive(Clone, PartialEq, Eq, Debug)]
pub struct Clash {
    /// The keys of the objects around it, from the root on, and its own.
    pub path: Vec<String>,
    /// The row of its value in the lower tree. The key's row stands just before it.
    pub lower: Row,
    /// The row of its value in the upper tree.
    pub upper: Row,
    /// What the two values are.
    pub kinds: [Kind; 2],
}

impl Clash {
    /// The path as people see it, its keys in quotes.
    pub fn shown_path(&self) -> String {
        let keys: Vec<_> = self.path.iter().map(|key| quoted(key.as_bytes())).collect();
        keys.join(" ")
    }
}

impl fmt::Display for Clash {
    fn fmt(&self, out: &mut fmt::Formatter) -> fmt::Result {
        let [lower, upper] = self.kinds.map(Kind::with_article);
        write!(out, "the key {} is {lower} below and {upper} above", self.shown_path())
    }
}

impl Error for Clash {}

/// The first key, in the lower tree's order, that clashes; nothing if none does, or if a table is not sound or its root no
/// object. The number is the proved function's; this is read off the two tables and tested against it.
///
/// ```
/// let fleet = yay::Document::read(b"battery: {low-at: 0.15}\n")?;
/// let site = yay::Document::read(b"battery:\n  low-at: {warn: 0.2}\n")?;
/// assert_eq!(fleet.overlaid(&site.tree()), Err(yay::Unlaid::Clash));
/// let clash = yay::clash(&fleet.tree(), &site.tree()).unwrap();
/// assert_eq!(clash.to_string(), "the key \"battery\" \"low-at\" is a float below and an object above");
/// assert_eq!((clash.path.join("."), site.tree().line(clash.upper)?), ("battery.low-at".into(), 2));
/// # Ok::<(), Box<dyn std::error::Error>>(())
/// ```
pub fn clash(lower: &Tree, upper: &Tree) -> Option<Clash> {
    let are_objects = [lower, upper].iter().all(|tree| sound(tree) && tree.kind(ROOT) == Ok(Kind::Object));
    // A sound table answers every question that is asked of it here.
    are_objects.then(|| Walk { lower, upper, path: Vec::new() }.objects(ROOT, ROOT).ok())?.flatten()
}

struct Walk<'w, 'a> {
    lower: &'w Tree<'a>,
    upper: &'w Tree<'a>,
    /// The keys of the objects that are walked.
    path: Vec<&'w str>,
}

impl<'w, 'a: 'w> Walk<'w, 'a> {
    fn objects(&mut self, lower: Row, upper: Row) -> Result<Option<Clash>, Mismatch> {
        let over: HashMap<_, _> = self.upper.pairs(upper)?.collect();
        for (key, below) in self.lower.pairs(lower)? {
            let Some(&above) = over.get(key) else { continue };
            self.path.push(key);
            let kinds = [self.lower.kind(below)?, self.upper.kind(above)?];
            let clash = match kinds.map(|kind| kind == Kind::Object) {
                [true, true] => self.objects(below, above)?,
                [false, false] => None,
                _ => {
                    let path = self.path.iter().map(|key| key.to_string()).collect();
                    Some(Clash { path, lower: below, upper: above, kinds })
                }
            };
            if clash.is_some() {
                return Ok(clash);
            }
            self.path.pop();
        }
        Ok(None)
    }
}

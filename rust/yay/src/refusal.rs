//! Numbers of refusal, and the errors that carry them.

use crate::limits::{longest, nesting, WORDS};
use crate::place::{Place, Position};
use std::error::Error;
use std::fmt;

/// Why a document is refused, or a question has no answer.
#[derive(Clone, Copy, PartialEq, Eq, Hash, Debug)]
#[repr(u32)]
pub enum Number {
    /// The document, read or written, has more than [`LONGEST`](crate::LONGEST) bytes.
    Long = 1,
    /// The byte at the place belongs to no allowed character.
    Char,
    /// No document goes on with the byte at the place.
    Syntax,
    /// Only with more than [`NESTING`](crate::NESTING) containers one inside another could it go on so.
    Deep,
    /// The document ends too early.
    End,
    /// The key at the place equals an earlier key of its object.
    Repeat,
    /// The table lent has too few words.
    Rows,
    /// The text room lent, or the output, has too few bytes.
    Text,
    /// A question met a row that the table doesn't have, of the wrong kind, or broken; or the table isn't sound.
    BadRow,
    /// The key isn't in the object.
    None,
    /// A text compared isn't an integer's text.
    NotInt,
    /// The bytes aren't a sound table's stored form, or are more than [`LONGEST_STORED`](crate::LONGEST_STORED). No number
    /// is 12.
    BadForm = 13,
    /// The table isn't a sound one of a release sheet.
    BadSheet,
    /// The table isn't a sound one of an installed version.
    BadInst,
    /// A key has an object in one of two tables and another value in the other.
    Clash,
}

const NUMBERS: [(Number, &str, &str); 15] = [
    (Number::Long, "LONG", concat!("the document has more than ", longest!(), " bytes")),
    (Number::Char, "CHAR", "this byte belongs to no allowed character"),
    (Number::Syntax, "SYNTAX", "no document goes on like this"),
    (Number::Deep, "DEEP", concat!("more than ", nesting!(), " containers stand one inside another")),
    (Number::End, "END", "the document ends too early"),
    (Number::Repeat, "REPEAT", "this key stands in its object already"),
    (Number::Rows, "ROWS", "the table lent has too few words"),
    (Number::Text, "TEXT", "the text room or output lent has too few bytes"),
    (Number::BadRow, "BADROW", "the table is not sound, or has no such row that could be asked this"),
    (Number::None, "NONE", "the key isn't in the object"),
    (Number::NotInt, "NOTINT", "a text compared isn't an integer's text"),
    (Number::BadForm, "BADFORM", "this is no stored form"),
    (Number::BadSheet, "BADSHEET", "this is no release sheet"),
    (Number::BadInst, "BADINST", "this is no installed version"),
    (Number::Clash, "CLASH", "an object is laid over another value, or another value over an object"),
];

impl Number {
    /// The number as given by the C interface: 1 to 16, but 12.
    pub fn from_code(code: u32) -> Option<Number> {
        NUMBERS.iter().map(|(number, _, _)| *number).find(|number| number.code() == code)
    }

    pub fn code(self) -> u32 {
        self as u32
    }

    /// Its name in capitals, as `SYNTAX`.
    pub fn name(self) -> &'static str {
        self.entry().1
    }

    /// What it means, in one plain sentence without a full stop.
    pub fn meaning(self) -> &'static str {
        self.entry().2
    }

    fn entry(self) -> &'static (Number, &'static str, &'static str) {
        NUMBERS.iter().find(|entry| entry.0 == self).expect("every number is in the table")
    }

    /// A code outside the header's list would be a broken library: there is nothing to go on with.
    pub(crate) fn given(code: u32) -> Number {
        Number::from_code(code).expect("libyay gives the numbers of yay.h alone")
    }
}

impl fmt::Display for Number {
    fn fmt(&self, out: &mut fmt::Formatter) -> fmt::Result {
        write!(out, "{} ({}): {}", self.name(), self.code(), self.meaning())
    }
}

impl Error for Number {}

/// A document refused: numbers [`Number::Long`] to [`Number::Text`]. `sentence` says more of it.
#[derive(Clone, Copy, PartialEq, Eq, Debug)]
pub struct Refusal {
    pub number: Number,
    /// Where; for [`Number::Rows`] and [`Number::Text`] how many rows or bytes are needed.
    pub place: Place,
    /// The place as line and column; for [`Number::Rows`] and [`Number::Text`] there is none.
    pub position: Option<Position>,
}

impl fmt::Display for Refusal {
    fn fmt(&self, out: &mut fmt::Formatter) -> fmt::Result {
        match (self.number, self.position) {
            (Number::Rows, _) => write!(out, "{}, {} rows of {WORDS} words are needed", self.number, self.place.0),
            (Number::Text, _) => write!(out, "{}, {} are needed", self.number, self.place.0),
            (Number::Long, _) | (_, None) => write!(out, "{}", self.number),
            (_, Some(position)) => write!(out, "{}, at {position} (byte {})", self.number, self.place.0),
        }
    }
}

impl Error for Refusal {}

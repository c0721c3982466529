//! Tables to try the writer and the test of soundness on: filled by reading documents, made of random trees that are
//! sound or nearly so, either of them damaged in every word and every byte of text, and all of one or two rows.

pub mod borders;
pub mod damage;
pub mod small;
pub mod stream;
pub mod texts;
pub mod trees;

use crate::second::questions::Lent;
use crate::second::{Given, WORDS};

/// A table, its row count and text room.
#[derive(Clone, PartialEq, Eq, Debug)]
pub struct Table {
    pub words: Vec<u32>,
    pub rows: usize,
    pub text: Vec<u8>,
    /// Whether it is sound, where that is known from how it was made.
    pub sound: Option<bool>,
}

impl Table {
    pub fn lent(&self) -> Lent<'_> {
        Lent { table: &self.words, rows: self.rows, text: &self.text }
    }
}

impl From<Given> for Table {
    /// What a document gives is sound.
    fn from(given: Given) -> Table {
        Table { rows: given.words.len() / WORDS, words: given.words, text: given.text, sound: Some(true) }
    }
}

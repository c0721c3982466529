//! Rows and text as they are gathered, and the search for repeated keys.

use super::keys::{mix, Keys};
use super::text::Text;
use super::WORDS;

pub const NULL: u32 = 1;
pub const FALSE: u32 = 2;
pub const TRUE: u32 = 3;
pub const INTEGER: u32 = 4;
pub const FLOAT: u32 = 5;
pub const STRING: u32 = 6;
pub const BYTES: u32 = 7;
pub const ARRAY: u32 = 8;
pub const OBJECT: u32 = 9;
pub const KEY: u32 = 10;

/// Objects of up to this many keys are compared key by key.
const FEW: u32 = 8;

/// Places in a row.
pub const SPAN_FROM: usize = 1;
const SPAN_TO: usize = 2;
pub const TEXT_FROM: usize = 3;
pub const TEXT_TO: usize = 4;
pub const PARENT: usize = 5;
pub const NEXT: usize = 6;
pub const LINE: usize = 7;
pub const COLUMN: usize = 8;

#[derive(Default)]
pub struct Tree {
    /// Without their lines and columns, which are told at the end.
    pub rows: Vec<[u32; WORDS]>,
    pub text: Text,
    /// How many escapes were read; no quoted string is read twice.
    pub escapes: usize,
    /// The smallest start of a key that equals an earlier key of its object.
    pub repeat: Option<usize>,
    keys: Keys,
}

impl Tree {
    /// Empties the tree, with room for a document of `size` bytes.
    pub fn clear(&mut self, size: usize) {
        self.rows.clear();
        self.text.clear(size);
        self.keys.clear(size);
        self.escapes = 0;
        self.repeat = None;
    }

    /// A row of kinds 1 to 3.
    #[inline(always)]
    pub fn word(&mut self, kind: u32, parent: u32, from: usize, to: usize) {
        let next = self.rows.len() as u32 + 1;
        self.rows.push([kind, from as u32, to as u32, 0, 0, parent, next, 0, 0]);
    }

    /// A row whose text is what was gathered from `text_from` on.
    #[inline(always)]
    pub fn leaf(&mut self, kind: u32, parent: u32, from: usize, to: usize, text_from: usize) {
        let next = self.rows.len() as u32 + 1;
        let text = (text_from as u32, self.text.len() as u32);
        self.rows.push([kind, from as u32, to as u32, text.0, text.1, parent, next, 0, 0]);
    }

    /// The row of an array or object whose end is still to come.
    #[inline]
    pub fn open(&mut self, kind: u32, parent: u32, from: usize) -> u32 {
        let row = self.rows.len() as u32;
        self.rows.push([kind, from as u32, 0, 0, 0, parent, 0, 0, 0]);
        row
    }

    #[inline]
    pub fn close(&mut self, row: u32, to: usize, count: u32) {
        let next = self.rows.len() as u32;
        let row = &mut self.rows[row as usize];
        row[SPAN_TO] = to as u32;
        row[TEXT_TO] = count;
        row[NEXT] = next;
    }

    /// A key's row in an object that has `before` keys already.
    #[inline]
    pub fn key(&mut self, object: u32, before: u32, from: usize, to: usize, text_from: usize) {
        let row = self.rows.len() as u32;
        self.leaf(KEY, object, from, to, text_from);
        if before == 0 || self.repeat.is_some() {
            return;
        }
        let met = if before < FEW { self.met_few(object, row) } else { self.met_many(object, before, row) };
        if met {
            self.repeat = Some(from);
        }
    }

    #[inline]
    fn key_text(&self, row: u32) -> &[u8] {
        let row = &self.rows[row as usize];
        self.text.part(row[TEXT_FROM], row[TEXT_TO])
    }

    /// Walks the object's keys before `row`.
    fn met_few(&self, object: u32, row: u32) -> bool {
        let key = self.key_text(row);
        let mut other = object + 1;
        while other < row {
            if self.key_text(other) == key {
                return true;
            }
            other = self.rows[other as usize + 1][NEXT];
        }
        false
    }

    /// Looks in the table, where the object's first keys are put when it grows past few.
    fn met_many(&mut self, object: u32, before: u32, row: u32) -> bool {
        if before == FEW {
            let mut other = object + 1;
            while other < row {
                self.met(object, other);
                other = self.rows[other as usize + 1][NEXT];
            }
        }
        self.met(object, row)
    }

    fn met(&mut self, object: u32, row: u32) -> bool {
        let (rows, text) = (&self.rows, &self.text);
        let words = &rows[row as usize];
        let (from, to) = (words[TEXT_FROM], words[TEXT_TO]);
        let start = u64::from(object) << 32 | u64::from(to - from);
        let hash = text.fold(from, to, start, mix);
        self.keys.met(hash, row, |other| {
            let words = &rows[other as usize];
            words[PARENT] == object && text.part(words[TEXT_FROM], words[TEXT_TO]) == text.part(from, to)
        })
    }
}

//! Random documents from the grammar with every construct, each with the rows, text
//! and escapes that it was grown to mean: a third source beside the two readers.

mod blocks;
mod values;

use super::pieces::{self, Spelled};
use super::Rng;
use crate::second::{Given, Refusal, REPEAT, WORDS};
use std::collections::HashSet;

/// Numbers 1 to 6, or all that a document gives.
pub type Meant = Result<Given, Refusal>;

/// A document and what it was grown to mean.
pub struct Grown {
    pub doc: Vec<u8>,
    pub meant: Meant,
}

/// A document of about `size` bytes with at most `nesting` containers one inside another.
pub fn grow(rng: &mut Rng, size: usize, nesting: usize) -> Grown {
    let (repeats, wide) = (if rng.once_in(8) { 5 } else { 0 }, rng.once_in(10));
    grow_so(rng, size, nesting, repeats, wide)
}

/// The same with arrays and objects that go on until the size is reached, and in every other document with a key that
/// repeats an earlier one far behind it.
pub fn grow_wide(rng: &mut Rng, size: usize, nesting: usize) -> Grown {
    let repeats = if rng.once_in(2) { 1 + rng.below(2000) } else { 0 };
    grow_so(rng, size, nesting, repeats, true)
}

fn grow_so(rng: &mut Rng, size: usize, nesting: usize, repeats: usize, wide: bool) -> Grown {
    let rich = rng.once_in(4);
    let (doc, rows, text, (line, column)) = (Vec::new(), Vec::new(), Vec::new(), (1, 1));
    let mut grower = Grower { rng, size, doc, line, column, rows, text, escapes: 0, repeat: None, repeats, wide, rich };
    grower.document(nesting);
    let Grower { doc, rows, text, escapes, repeat, .. } = grower;
    let meant = match repeat {
        Some(place) => Err(Refusal { number: REPEAT, place }),
        None => Ok(Given { words: rows.concat(), text, escapes }),
    };
    Grown { doc, meant }
}

struct Grower<'r> {
    rng: &'r mut Rng,
    size: usize,
    doc: Vec<u8>,
    /// Those of the next character, counted as characters are written.
    line: u32,
    column: u32,
    rows: Vec<[u32; WORDS]>,
    text: Vec<u8>,
    escapes: usize,
    repeat: Option<usize>,
    /// One key in so many, and as many as its object has, repeats one of them; 0 for none.
    repeats: usize,
    /// Whether arrays and objects go on until the size is reached.
    wide: bool,
    /// Whether strings have many backslashes, and every other key is quoted.
    rich: bool,
}

/// A place in the document as it grows.
#[derive(Clone, Copy)]
struct Here {
    byte: usize,
    line: u32,
    column: u32,
}

/// The keys an object has so far, in their order and to be found.
#[derive(Default)]
struct Keys {
    list: Vec<Vec<u8>>,
    met: HashSet<Vec<u8>>,
}

impl Grower<'_> {
    fn write(&mut self, text: &str) {
        self.doc.extend_from_slice(text.as_bytes());
        for character in text.chars() {
            (self.line, self.column) =
                if character == '\n' { (self.line + 1, 1) } else { (self.line, self.column + 1) };
        }
    }

    fn indent(&mut self, column: usize) {
        self.write(&" ".repeat(column));
    }

    fn here(&self) -> Here {
        Here { byte: self.at(), line: self.line, column: self.column }
    }

    fn at(&self) -> usize {
        self.doc.len()
    }

    /// Whether the document is to go on growing.
    fn more(&mut self) -> bool {
        self.doc.len() < self.size && (self.wide || !self.rng.once_in(8))
    }

    fn leaf(&mut self, kind: u32, parent: usize, span: (Here, usize), text: &[u8]) {
        let from = self.text.len() as u32;
        self.text.extend_from_slice(text);
        let words = if kind <= 3 { (0, 0) } else { (from, self.text.len() as u32) };
        let next = self.rows.len() as u32 + 1;
        let (Here { byte, line, column }, to) = span;
        self.rows.push([kind, byte as u32, to as u32, words.0, words.1, parent as u32, next, line, column]);
    }

    fn open(&mut self, kind: u32, parent: usize) -> usize {
        let Here { byte, line, column } = self.here();
        self.rows.push([kind, byte as u32, 0, 0, 0, parent as u32, 0, line, column]);
        self.rows.len() - 1
    }

    fn close(&mut self, row: usize, to: usize, count: usize) {
        let next = self.rows.len() as u32;
        let words = &mut self.rows[row];
        (words[2], words[4], words[6]) = (to as u32, count as u32, next);
    }

    /// Writes a key and its row, and notes whether the object has it already.
    fn key(&mut self, object: usize, keys: &mut Keys) {
        let from = self.here();
        let Spelled { written, meant, escapes } = self.new_key(keys);
        self.write(&written);
        self.escapes += escapes;
        let to = self.at();
        self.leaf(10, object, (from, to), &meant);
        if !keys.met.insert(meant.clone()) && self.repeat.is_none() {
            self.repeat = Some(from.byte);
        }
        keys.list.push(meant);
    }

    /// A key as written and as meant; one that the object has only in a document with repeats, whose escapes nobody is
    /// told.
    fn new_key(&mut self, keys: &Keys) -> Spelled {
        let count = keys.list.len();
        if self.repeats > 0 && count > 0 && self.rng.once_in(self.repeats + count) {
            let meant = keys.list[self.rng.below(count)].clone();
            return Spelled { written: pieces::written_anew(self.rng, &meant), meant, escapes: 0 };
        }
        loop {
            let key = if self.rng.once_in(if self.rich { 2 } else { 4 }) {
                pieces::quoted(self.rng, self.rich)
            } else {
                let written = pieces::bare_key(self.rng);
                Spelled { meant: written.clone().into_bytes(), written, escapes: 0 }
            };
            if !keys.met.contains(&key.meant) {
                return key;
            }
        }
    }

    fn comment(&mut self) {
        let text = pieces::text(self.rng, 0);
        self.write("#");
        self.write(&text);
    }

    /// Sometimes a line comment, then the line's end.
    fn line_end(&mut self) {
        if self.rng.once_in(5) {
            self.write("  ");
            self.comment();
        }
        self.write("\n");
    }

    fn document(&mut self, nesting: usize) {
        while self.rng.once_in(4) {
            self.comment();
            self.write("\n");
        }
        match self.rng.below(8) {
            0 => self.open_string(0, 0),
            1 => self.open_bytes(0, 0),
            2 => {
                let to = self.value(0, true, nesting);
                self.write("\n");
                to
            }
            3..=5 => self.object(0, 0, nesting),
            _ => self.array(0, 0, nesting),
        };
        while self.rng.once_in(4) {
            self.write("\n");
        }
    }
}

//! The second reader: the whole answer of `read`, written from documents 01 and 02
//! and apart from the proved reader. One pass from left to right over a padded copy
//! of the document gathers rows and text on the heap; only an accepted document
//! reaches the lent rooms.

mod blocks;
mod bytes;
pub mod decide;
mod inline;
mod items;
mod keys;
mod lines;
mod numbers;
pub mod overlay;
mod places;
pub mod questions;
mod quoted;
mod scan;
pub mod sound;
pub mod stored;
mod text;
mod tree;
pub mod write;

use lines::Frame;
use scan::PAD;
use std::mem::take;
use tree::Tree;

/// The most bytes a document may have.
pub const LONGEST: usize = 1_048_576;
/// The most containers one inside another.
pub const NESTING: usize = 32;
/// Words of a row.
pub const WORDS: usize = 9;
/// The most rows, and the most text bytes, of a sound table; a lent room counts for no more.
pub const MOST: usize = 16_777_216;

pub const LONG: u32 = 1;
pub const CHAR: u32 = 2;
pub const SYNTAX: u32 = 3;
pub const DEEP: u32 = 4;
pub const END: u32 = 5;
pub const REPEAT: u32 = 6;
pub const ROWS: u32 = 7;
pub const TEXT: u32 = 8;

/// A number of document 01's table and its place.
#[derive(Clone, Copy, PartialEq, Eq, Debug)]
pub struct Refusal {
    pub number: u32,
    pub place: usize,
}

/// How many rows and bytes of text were given, and how many escapes the document has.
#[derive(Clone, Copy, PartialEq, Eq, Debug)]
pub struct Counts {
    pub rows: usize,
    pub text: usize,
    pub escapes: usize,
}

/// All that an accepted document gives: the words of its rows, its text, and how many escapes it has.
#[derive(Clone, PartialEq, Eq, Debug)]
pub struct Given {
    pub words: Vec<u32>,
    pub text: Vec<u8>,
    pub escapes: usize,
}

pub type Answer = Result<Counts, Refusal>;

/// Why the pass stops. At the document's end each of them means END.
#[derive(Clone, Copy)]
pub(crate) enum Stop {
    /// No document has this byte here: CHAR if no character begins with it, else SYNTAX.
    At(usize),
    /// This byte breaks the character it stands in.
    Char(usize),
    /// Only a document with more containers has this byte here.
    Deep(usize),
}

pub(crate) type Step<T> = Result<T, Stop>;

/// One line of a block string's body that has text.
#[derive(Clone, Copy)]
pub(crate) struct TextLine {
    /// Blank lines since the text line before.
    blanks: usize,
    start: usize,
    end: usize,
}

/// The reader with its buffers, which it keeps from document to document.
pub struct Second {
    nesting: usize,
    buffer: Vec<u8>,
    tree: Tree,
    frames: Vec<Frame>,
    body: Vec<TextLine>,
}

/// What a single pass works on.
pub(crate) struct Pass<'d> {
    doc: &'d [u8],
    len: usize,
    nesting: usize,
    tree: Tree,
    /// The innermost open container; the root's place if none is open.
    top: Frame,
    /// The containers around it.
    frames: Vec<Frame>,
    body: Vec<TextLine>,
    /// Byte after the span that was closed last.
    last: usize,
    /// Whether spaces stand between the digits of the number being read.
    gaps: bool,
    /// Up to how many spaces the value before the next line could go on with.
    reach: usize,
}

impl Default for Second {
    fn default() -> Self {
        Self::with_nesting(NESTING)
    }
}

impl Second {
    pub fn new() -> Self {
        Self::default()
    }

    /// The same reader with another limit of nesting, so that small documents can meet it.
    pub fn with_nesting(nesting: usize) -> Self {
        Second { nesting, buffer: Vec::new(), tree: Tree::default(), frames: Vec::new(), body: Vec::new() }
    }

    /// Numbers 1 to 6, or all that the document gives.
    pub fn given(&mut self, doc: &[u8]) -> Result<Given, Refusal> {
        let (words, text, escapes) = self.tree(doc)?;
        Ok(Given { words: words.to_vec(), text: text.to_vec(), escapes })
    }

    /// The same in the reader's own rooms: all rows and text, and the escapes.
    pub fn tree(&mut self, doc: &[u8]) -> Result<(&[u32], &[u8], usize), Refusal> {
        if doc.len() > LONGEST {
            return Err(Refusal { number: LONG, place: 0 });
        }
        self.buffer.clear();
        self.buffer.extend_from_slice(doc);
        self.buffer.extend_from_slice(&[0; PAD]);
        self.tree.clear(doc.len());
        self.frames.clear();
        let mut pass = Pass {
            doc: &self.buffer,
            len: doc.len(),
            nesting: self.nesting,
            tree: take(&mut self.tree),
            top: Frame::ROOT,
            frames: take(&mut self.frames),
            body: take(&mut self.body),
            last: 0,
            gaps: false,
            reach: 0,
        };
        let answer = pass.document();
        (self.tree, self.frames, self.body) = (pass.tree, pass.frames, pass.body);
        answer.map_err(|stop| refusal(doc, stop))?;
        if let Some(place) = self.tree.repeat {
            return Err(Refusal { number: REPEAT, place });
        }
        places::tell(doc, &mut self.tree.rows);
        Ok((self.tree.rows.as_flattened(), self.tree.text.all(), self.tree.escapes))
    }

    /// The answer of `read`: fills the lent rooms or leaves both unchanged.
    pub fn read(&mut self, doc: &[u8], table: &mut [u32], room: &mut [u8]) -> Answer {
        let (words, text, escapes) = self.tree(doc)?;
        let counts = Counts { rows: words.len() / WORDS, text: text.len(), escapes };
        // A document has fewer rows and text than the most that a lent room counts for.
        if words.len() > table.len() {
            return Err(Refusal { number: ROWS, place: counts.rows });
        }
        if text.len() > room.len() {
            return Err(Refusal { number: TEXT, place: counts.text });
        }
        table[..words.len()].copy_from_slice(words);
        room[..text.len()].copy_from_slice(text);
        Ok(counts)
    }
}

/// Numbers 2 to 5 for the place where the pass stopped.
fn refusal(doc: &[u8], stop: Stop) -> Refusal {
    let (number, place) = match stop {
        Stop::At(at) => (SYNTAX, at),
        Stop::Char(at) => (CHAR, at),
        Stop::Deep(at) => (DEEP, at),
    };
    let number = match doc.get(place) {
        None => END,
        Some(&byte) if number == SYNTAX && !scan::begins_character(byte) => CHAR,
        Some(_) => number,
    };
    Refusal { number, place }
}

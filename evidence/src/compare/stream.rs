//! The documents of a run, in an order fixed by the seed: borders and vectors, then
//! all documents over small alphabets mixed with random ones, without end.

use crate::documents::grow::Meant;
use crate::documents::{borders::borders, deep::deep, grow, grow_wide, mutate::mutate, small, Grown, Rng};
use crate::second::{Second, END, LONGEST, REPEAT};
use crate::vectors::Vector;

/// A document and, where it is known apart from the second reader, what it means.
pub struct Document {
    pub doc: Vec<u8>,
    pub meant: Option<Meant>,
    /// Whether it is tried in every room.
    pub every_room: bool,
}

/// A document of which nothing is known.
fn unknown(doc: Vec<u8>) -> Document {
    Document { doc, meant: None, every_room: false }
}

/// How many documents of an alphabet come before its walk.
const PER_ALPHABET: usize = 20_000;

pub struct Stream {
    rng: Rng,
    /// Documents to come before anything else, the next one last.
    waiting: Vec<Document>,
    vectors: Vec<Vec<u8>>,
    second: Second,
    /// The alphabet of the small documents; those of the other parts are passed over.
    alphabet: usize,
    parts: usize,
    index: usize,
    walk: small::Walk,
    begins: bool,
}

impl Stream {
    /// One of `parts` streams: together they have every border and vector and all small documents, and each has its
    /// own random ones.
    pub fn new(seed: u64, part: usize, parts: usize, vectors: &[Vector]) -> Self {
        let known = vectors.iter().map(|vector| (vector.doc.clone(), vector.meant.clone()));
        let all = borders().into_iter().chain(known).skip(part).step_by(parts);
        let mut waiting: Vec<_> =
            all.map(|(doc, meant)| Document { doc, meant: Some(meant), every_room: true }).collect();
        waiting.reverse();
        Stream {
            rng: Rng::new(seed.wrapping_mul(parts as u64).wrapping_add(part as u64)),
            waiting,
            vectors: vectors.iter().map(|vector| vector.doc.clone()).collect(),
            second: Second::new(),
            alphabet: part,
            parts,
            index: 0,
            walk: small::Walk::default(),
            begins: true,
        }
    }

    /// The next document, without end.
    pub fn document(&mut self) -> Document {
        if let Some(document) = self.waiting.pop() {
            return document;
        }
        if self.rng.once_in(2) {
            return self.random();
        }
        match self.small() {
            Some(doc) => unknown(doc),
            None => self.random(),
        }
    }

    /// All short documents of each alphabet, then a walk over its longer ones.
    fn small(&mut self) -> Option<Vec<u8>> {
        loop {
            let alphabet = small::ALPHABETS.get(self.alphabet)?;
            self.index += 1;
            if self.index <= PER_ALPHABET {
                return Some(small::document(alphabet, self.index - 1));
            }
            if let Some(doc) = self.walk.next(alphabet, self.begins) {
                self.begins = self.second.tree(&doc).map_or_else(|no| matches!(no.number, END | REPEAT), |_| true);
                return Some(doc);
            }
            self.alphabet += self.parts;
            (self.index, self.walk, self.begins) = (0, small::Walk::default(), true);
        }
    }

    fn random(&mut self) -> Document {
        let mut doc = match self.rng.below(100) {
            0..=29 => {
                let Grown { doc, meant } = self.grown();
                return Document { doc, meant: Some(meant), every_room: false };
            }
            30..=69 => self.grown().doc,
            70..=84 if !self.vectors.is_empty() => self.vectors[self.rng.below(self.vectors.len())].clone(),
            70..=96 => {
                let depth = 29 + self.rng.below(6);
                deep(&mut self.rng, depth)
            }
            97 => self.large(),
            98 => self.cut(),
            _ => return unknown(self.long()),
        };
        if !self.rng.once_in(8) {
            mutate(&mut self.rng, &mut doc);
        }
        unknown(doc)
    }

    /// Mostly small, now and then of some thousand bytes.
    fn grown(&mut self) -> Grown {
        let size = match self.rng.below(200) {
            0 => self.rng.below(6000),
            1..=9 => self.rng.below(800),
            _ => self.rng.below(120),
        };
        grow(&mut self.rng, size, 32)
    }

    /// A document too large to be read at once, or about as large; now and then one of many times as many bytes.
    fn large(&mut self) -> Vec<u8> {
        let (least, more) = if self.rng.once_in(60) { (33_000, 200_000) } else { (6_000, 27_000) };
        let (size, nesting) = (least + self.rng.below(more), 1 + self.rng.below(6));
        let Grown { doc, meant } = grow_wide(&mut self.rng, size, nesting);
        self.waiting.push(Document { doc: doc.clone(), meant: Some(meant), every_room: false });
        doc
    }

    /// A grown document, to be followed by its cuts at every place.
    fn cut(&mut self) -> Vec<u8> {
        let size = self.rng.below(60);
        let doc = grow(&mut self.rng, size, 6).doc;
        self.waiting.extend((0..doc.len().min(200)).map(|end| unknown(doc[..end].to_vec())));
        doc
    }

    /// A document around the longest that is read; most of them are too long, which is soon said. Every other one has a bit
    /// changed.
    fn long(&mut self) -> Vec<u8> {
        let size = if self.rng.once_in(20) { LONGEST - self.rng.below(3) } else { LONGEST + 1 + self.rng.below(2) };
        let mut doc = grow(&mut self.rng, 40, 3).doc;
        match self.rng.below(3) {
            0 => doc.resize(size, b'\n'),
            1 => doc.resize(size, b' '),
            _ => {
                doc = b"\"".to_vec();
                doc.resize(size - 2, b'x');
                doc.extend_from_slice(b"\"\n");
            }
        }
        if self.rng.once_in(2) {
            let at = self.rng.below(size);
            doc[at] ^= 1 << self.rng.below(8);
        }
        doc
    }
}

//! Keywords, integers and floats.

use super::scan::{digits_end, LF};
use super::tree::{FALSE, FLOAT, INTEGER, NULL, TRUE};
use super::{Pass, Step, Stop};

impl Pass<'_> {
    /// A keyword or number at `at`; gives the byte after it. Digits may be `spaced` outside `[` and `{`.
    pub(crate) fn plain(&mut self, at: usize, parent: u32, spaced: bool) -> Step<usize> {
        match self.doc[at] {
            b'0'..=b'9' | b'.' => self.number(at, parent, spaced),
            b'-' if self.doc[at + 1] == b'i' => self.float_word(at, parent, b"-infinity"),
            b'-' => self.number(at, parent, spaced),
            b'n' if self.doc[at + 1] == b'a' => self.float_word(at, parent, b"nan"),
            b'n' => self.word(at, parent, NULL, b"null"),
            b't' => self.word(at, parent, TRUE, b"true"),
            b'f' => self.word(at, parent, FALSE, b"false"),
            b'i' => self.float_word(at, parent, b"infinity"),
            _ => Err(Stop::At(at)),
        }
    }

    /// The byte after `word` at `at`, or the first byte that differs.
    fn word_end(&self, at: usize, word: &[u8]) -> Step<usize> {
        let here = &self.doc[at..];
        if here.starts_with(word) {
            return Ok(at + word.len());
        }
        let same = here.iter().zip(word).take_while(|(a, b)| a == b).count();
        Err(Stop::At(at + same))
    }

    fn word(&mut self, at: usize, parent: u32, kind: u32, word: &[u8]) -> Step<usize> {
        let end = self.word_end(at, word)?;
        self.tree.word(kind, parent, at, end);
        self.last = end;
        Ok(end)
    }

    fn float_word(&mut self, at: usize, parent: u32, word: &[u8]) -> Step<usize> {
        let end = self.word_end(at, word)?;
        self.number_row(FLOAT, parent, at, end);
        Ok(end)
    }

    #[inline]
    fn number(&mut self, from: usize, parent: u32, spaced: bool) -> Step<usize> {
        let doc = self.doc;
        let digits = from + usize::from(doc[from] == b'-');
        let mut at = digits;
        if doc[at].is_ascii_digit() {
            at = self.digits(at, spaced)?;
            if doc[at] != b'.' && doc[at] != b'e' {
                self.integer_row(parent, from, digits, at);
                return Ok(at);
            }
        } else if doc[at] != b'.' || !doc[at + 1].is_ascii_digit() {
            return Err(Stop::At(at + usize::from(doc[at] == b'.')));
        }
        if doc[at] == b'.' {
            at += 1;
            if doc[at].is_ascii_digit() {
                at = self.digits(at, spaced)?;
            }
        }
        if doc[at] == b'e' {
            at += 1 + usize::from(matches!(doc[at + 1], b'+' | b'-'));
            at = self.digits(at, spaced)?;
        }
        self.number_row(FLOAT, parent, from, at);
        Ok(at)
    }

    /// The byte after one or more digits.
    #[inline(always)]
    fn digits(&mut self, at: usize, spaced: bool) -> Step<usize> {
        let mut end = digits_end(self.doc, at);
        if end == at {
            return Err(Stop::At(at));
        }
        while spaced && self.doc[end] == b' ' && self.doc[end + 1].is_ascii_digit() {
            self.gaps = true;
            end = digits_end(self.doc, end + 1);
        }
        Ok(end)
    }

    /// Leading zeros fall away, and with zero the sign.
    #[inline]
    fn integer_row(&mut self, parent: u32, from: usize, digits: usize, to: usize) {
        if self.doc[digits] == b'0' {
            self.zeros_row(parent, from, digits, to);
        } else {
            self.number_row(INTEGER, parent, from, to);
        }
    }

    fn zeros_row(&mut self, parent: u32, from: usize, digits: usize, to: usize) {
        let doc = self.doc;
        let mut first = digits;
        while first + 1 < to && matches!(doc[first], b'0' | b' ') {
            first += 1;
        }
        let text_from = self.tree.text.len();
        if digits > from && doc[first] != b'0' {
            self.tree.text.push(b'-');
        }
        self.push_unspaced(first, to);
        self.tree.leaf(INTEGER, parent, from, to, text_from);
        self.last = to;
    }

    /// A number's row whose text is as written, spaces removed.
    #[inline(always)]
    fn number_row(&mut self, kind: u32, parent: u32, from: usize, to: usize) {
        let text_from = self.tree.text.len();
        if self.gaps {
            self.push_unspaced(from, to);
        } else {
            self.tree.text.copy(self.doc, from, to);
        }
        self.tree.leaf(kind, parent, from, to, text_from);
        self.last = to;
    }

    fn push_unspaced(&mut self, from: usize, to: usize) {
        self.gaps = false;
        for &byte in self.doc[from..to].iter().filter(|&&byte| byte != b' ') {
            self.tree.text.push(byte);
        }
    }

    /// The line after a root value that ends at `at`: no comment, but digits may go on after a space.
    pub(crate) fn root_end(&self, at: usize) -> Step<usize> {
        match self.doc[at] {
            LF => Ok(at + 1),
            b' ' if self.doc[at - 1].is_ascii_digit() => Err(Stop::At(at + 1)),
            _ => Err(Stop::At(at)),
        }
    }
}

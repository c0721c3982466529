//! Bytes written as hex pairs, inline and in blocks.

use super::scan::{hex, spaces, LF, NOT_HEX};
use super::tree::BYTES;
use super::{Pass, Step, Stop};

impl Pass<'_> {
    /// `<`, pairs, `>`.
    pub(crate) fn inline_bytes(&mut self, from: usize, parent: u32) -> Step<usize> {
        let text_from = self.tree.text.len();
        let mut at = from + 1;
        if self.doc[at] != b'>' {
            at = self.pairs(at)?;
        }
        match self.doc[at] {
            b'>' => {
                self.tree.leaf(BYTES, parent, from, at + 1, text_from);
                self.last = at + 1;
                Ok(at + 1)
            }
            b' ' => Err(Stop::At(at + 1)),
            _ => Err(Stop::At(at)),
        }
    }

    /// One or more pairs with at most one space between them; gives the byte after them.
    fn pairs(&mut self, mut at: usize) -> Step<usize> {
        let doc = self.doc;
        loop {
            let (high, low) = (hex(doc[at]), hex(doc[at + 1]));
            if high == NOT_HEX {
                return Err(Stop::At(at));
            }
            if low == NOT_HEX {
                return Err(Stop::At(at + 1));
            }
            self.tree.text.push(high << 4 | low);
            at += 2;
            let next = at + usize::from(doc[at] == b' ');
            if hex(doc[next]) == NOT_HEX {
                return Ok(at);
            }
            at = next;
        }
    }

    /// Open block bytes at `column`: `>`, space, then pairs or a comment.
    pub(crate) fn open_bytes(&mut self, at: usize, column: usize) -> Step<usize> {
        if self.doc[at + 1] != b' ' {
            return Err(Stop::At(at + 1));
        }
        let text_from = self.tree.text.len();
        let next = self.hex_line(at + 2)?;
        self.more_bytes(at, column, next, text_from)
    }

    /// Block bytes of a property at `column`: `>`, optional space and comment, at least one hex line.
    pub(crate) fn property_bytes(&mut self, at: usize, column: usize) -> Step<usize> {
        let start = match self.doc[at + 1] {
            LF => at + 2,
            b' ' => self.comment(at + 2)?,
            _ => return Err(Stop::At(at + 1)),
        };
        let text_from = self.tree.text.len();
        let indent = spaces(self.doc, start, self.len);
        if indent <= column {
            return Err(Stop::At(start + indent));
        }
        let next = self.hex_line(start + indent)?;
        self.more_bytes(at, column, next, text_from)
    }

    /// Pairs with an optional line comment, or a comment; gives the next line.
    fn hex_line(&mut self, at: usize) -> Step<usize> {
        if self.doc[at] == b'#' {
            return self.comment(at);
        }
        let end = self.pairs(at)?;
        self.line_end(end)
    }

    /// Any number of hex lines deeper than `column` from the line `next` on, then the row.
    fn more_bytes(&mut self, from: usize, column: usize, next: usize, text_from: usize) -> Step<usize> {
        let mut start = next;
        loop {
            let indent = spaces(self.doc, start, self.len);
            if indent <= column {
                break;
            }
            start = self.hex_line(start + indent)?;
        }
        let parent = self.parent();
        self.tree.leaf(BYTES, parent, from, start - 1, text_from);
        self.last = start - 1;
        self.reach = self.len;
        Ok(start)
    }
}

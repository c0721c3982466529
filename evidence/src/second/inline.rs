//! Line values, and the arrays and objects that stand in one line.

use super::scan::{key_end, LF};
use super::tree::{ARRAY, OBJECT};
use super::{Pass, Step, Stop};

impl Pass<'_> {
    /// A line value at `at` with `outside` containers around it; gives the byte after it.
    pub(crate) fn line_value(&mut self, at: usize, parent: u32, outside: usize) -> Step<usize> {
        self.value(at, parent, outside, true)
    }

    #[inline]
    fn value(&mut self, at: usize, parent: u32, outside: usize, spaced: bool) -> Step<usize> {
        match self.doc[at] {
            b'"' | b'\'' => self.quoted_value(at, parent),
            b'[' => self.inline_array(at, parent, outside),
            b'{' => self.inline_object(at, parent, outside),
            b'<' => self.inline_bytes(at, parent),
            _ => self.plain(at, parent, spaced),
        }
    }

    fn inline_array(&mut self, from: usize, parent: u32, outside: usize) -> Step<usize> {
        if outside == self.nesting {
            return Err(Stop::Deep(from));
        }
        let row = self.tree.open(ARRAY, parent, from);
        let mut at = from + 1;
        let mut count = 0;
        while self.doc[at] != b']' || count > 0 {
            at = self.value(at, row, outside + 1, false)?;
            count += 1;
            let next = self.comma(at, b']')?;
            if next == at {
                break;
            }
            at = next;
        }
        Ok(self.close_inline(row, at + 1, count))
    }

    fn inline_object(&mut self, from: usize, parent: u32, outside: usize) -> Step<usize> {
        if outside == self.nesting {
            return Err(Stop::Deep(from));
        }
        let row = self.tree.open(OBJECT, parent, from);
        let mut at = from + 1;
        let mut count = 0;
        while self.doc[at] != b'}' || count > 0 {
            let colon = self.key(at, row, count)?;
            if self.doc[colon + 1] != b' ' {
                return Err(Stop::At(colon + 1));
            }
            at = self.value(colon + 2, row, outside + 1, false)?;
            count += 1;
            let next = self.comma(at, b'}')?;
            if next == at {
                break;
            }
            at = next;
        }
        Ok(self.close_inline(row, at + 1, count))
    }

    /// The place after a comma and its space, or `at` itself if the closing byte stands there.
    #[inline]
    fn comma(&self, at: usize, closing: u8) -> Step<usize> {
        match self.doc[at] {
            b',' if self.doc[at + 1] == b' ' => Ok(at + 2),
            b',' => Err(Stop::At(at + 1)),
            byte if byte == closing => Ok(at),
            _ => Err(Stop::At(at)),
        }
    }

    fn close_inline(&mut self, row: u32, to: usize, count: u32) -> usize {
        self.tree.close(row, to, count);
        self.last = to;
        to
    }

    /// A key of an object that has `before` keys already; gives the place of its colon.
    pub(crate) fn key(&mut self, at: usize, object: u32, before: u32) -> Step<usize> {
        let text_from = self.tree.text.len();
        let end = match self.doc[at] {
            b'"' | b'\'' => self.quoted(at)?,
            _ => self.bare_key(at)?,
        };
        if self.doc[end] != b':' {
            return Err(Stop::At(end));
        }
        self.tree.key(object, before, at, end, text_from);
        Ok(end)
    }

    fn bare_key(&mut self, at: usize) -> Step<usize> {
        let end = key_end(self.doc, at);
        if end == at {
            return Err(Stop::At(at));
        }
        self.tree.text.copy(self.doc, at, end);
        Ok(end)
    }

    /// The line after a value that ends at `at`, with an optional line comment.
    #[inline]
    pub(crate) fn line_end(&self, at: usize) -> Step<usize> {
        match self.doc[at] {
            LF => Ok(at + 1),
            b' ' => self.line_comment(at),
            _ => Err(Stop::At(at)),
        }
    }

    /// Two spaces and a comment from `at` on, where the first space stands; gives the next line.
    pub(crate) fn line_comment(&self, at: usize) -> Step<usize> {
        if self.doc[at + 1] != b' ' {
            return Err(Stop::At(at + 1));
        }
        self.comment(at + 2)
    }
}

//! Block strings and joined strings.

use super::scan::{run_end, spaces, LF};
use super::tree::STRING;
use super::{Pass, Step, Stop, TextLine};

impl Pass<'_> {
    /// An open block string at `column`: its leader may have text.
    pub(crate) fn open_string(&mut self, at: usize, column: usize) -> Step<usize> {
        let end = match self.doc[at + 1] {
            LF => at + 1,
            b' ' => self.text_end(at + 2)?,
            _ => return Err(Stop::At(at + 1)),
        };
        let text_from = self.tree.text.len();
        self.tree.text.copy(self.doc, end.min(at + 2), end + 1);
        self.block_string(at, column, end, text_from)
    }

    /// The block string of a property at `column`: its leader is bare.
    pub(crate) fn property_string(&mut self, at: usize, column: usize) -> Step<usize> {
        if self.doc[at + 1] != LF {
            return Err(Stop::At(at + 1));
        }
        let text_from = self.tree.text.len();
        self.block_string(at, column, at + 1, text_from)
    }

    /// The LF behind a text that begins at `at`, which is not empty and ends in no space.
    /// A space stands before `at`, so that an empty text is refused as a line that ends in one.
    fn text_end(&self, at: usize) -> Step<usize> {
        let end = run_end(self.doc, at, LF, LF)?;
        if self.doc[end] != LF || self.doc[end - 1] == b' ' {
            return Err(Stop::At(end));
        }
        Ok(end)
    }

    /// The body after a leader whose LF stands at `leader`, then the row.
    fn block_string(&mut self, from: usize, column: usize, leader: usize, text_from: usize) -> Step<usize> {
        let (start, least) = self.body_lines(leader + 1, column)?;
        let doc = self.doc;
        let mut to = leader;
        for line in self.body.iter() {
            self.tree.text.fill(line.blanks, LF);
            self.tree.text.copy(doc, line.start + least, line.end + 1);
            to = line.end;
        }
        let parent = self.parent();
        self.tree.leaf(STRING, parent, from, to, text_from);
        self.last = to;
        self.reach = self.len;
        Ok(start)
    }

    /// Gathers the text lines deeper than `column`; gives the line after the body and the smallest indentation.
    fn body_lines(&mut self, mut start: usize, column: usize) -> Step<(usize, usize)> {
        self.body.clear();
        let mut least = self.len;
        let mut blanks = 0;
        loop {
            if self.doc[start] == LF {
                blanks += 1;
                start += 1;
                continue;
            }
            let indent = spaces(self.doc, start, self.len);
            if indent <= column {
                return Ok((start, least));
            }
            let end = self.text_end(start + indent)?;
            self.body.push(TextLine { blanks, start, end });
            least = least.min(indent);
            blanks = 0;
            start = end + 1;
        }
    }

    /// The second and further lines of a joined string at `column`, whose first string ended at `end`.
    pub(crate) fn joined(&mut self, from: usize, column: usize, end: usize, text_from: usize) -> Step<usize> {
        let mut end = end;
        let mut lines = 1;
        loop {
            let start = end + 1;
            let indent = spaces(self.doc, start, column);
            let at = start + indent;
            let more = indent == column && matches!(self.doc[at], b'"' | b'\'');
            if !more && (lines == 1 || indent == column) {
                return Err(Stop::At(at));
            }
            if !more {
                let parent = self.parent();
                self.tree.leaf(STRING, parent, from, end, text_from);
                self.last = end;
                self.reach = column;
                return Ok(start);
            }
            end = self.quoted(at)?;
            if self.doc[end] != LF {
                return Err(Stop::At(end));
            }
            lines += 1;
        }
    }
}

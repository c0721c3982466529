//! The root, items, properties and nested content.

use super::lines::Shape;
use super::scan::{is_key, key_end, spaces, GRAVE, LF};
use super::tree::STRING;
use super::{Pass, Step, Stop};

impl Pass<'_> {
    pub(crate) fn root(&mut self, at: usize) -> Step<usize> {
        match self.doc[at] {
            GRAVE => self.open_string(at, 0),
            b'>' => self.open_bytes(at, 0),
            b'-' if self.doc[at + 1] == b' ' => {
                self.open(Shape::Array, at, 0);
                self.item(at + 2, 2)
            }
            _ => self.value_or_object(at, 0),
        }
    }

    /// `- ` and an item, on a line of an array at `column`.
    pub(crate) fn item_line(&mut self, at: usize, column: usize) -> Step<usize> {
        if self.doc[at] != b'-' {
            return Err(Stop::At(at));
        }
        if self.doc[at + 1] != b' ' {
            return Err(Stop::At(at + 1));
        }
        self.item(at + 2, column + 2)
    }

    /// An item with content column `column`.
    fn item(&mut self, mut at: usize, mut column: usize) -> Step<usize> {
        self.count();
        while self.doc[at] == b'-' && self.doc[at + 1] == b' ' {
            if self.full() {
                return Err(Stop::Deep(at + 1));
            }
            self.open(Shape::Bullet, at, column);
            self.count();
            at += 2;
            column += 2;
        }
        match self.doc[at] {
            GRAVE => self.open_string(at, column),
            b'>' => self.open_bytes(at, column),
            _ => self.value_or_object(at, column),
        }
    }

    /// A line value and the rest of its line, or an object at `column` whose first key begins here.
    fn value_or_object(&mut self, at: usize, column: usize) -> Step<usize> {
        match self.doc[at] {
            b'"' | b'\'' => self.string_or_object(at, column),
            byte if is_key(byte) => self.plain_or_object(at, column),
            _ => self.value_line(at),
        }
    }

    fn string_or_object(&mut self, at: usize, column: usize) -> Step<usize> {
        let text_from = self.tree.text.len();
        let end = self.quoted(at)?;
        if self.doc[end] == b':' {
            return self.object(at, column, end, text_from);
        }
        let parent = self.parent();
        self.tree.leaf(STRING, parent, at, end, text_from);
        self.last = end;
        self.value_end(end)
    }

    fn plain_or_object(&mut self, at: usize, column: usize) -> Step<usize> {
        let run = key_end(self.doc, at);
        let colon = self.doc[run] == b':';
        if colon && !self.full() {
            let text_from = self.tree.text.len();
            self.tree.text.copy(self.doc, at, run);
            return self.object(at, column, run, text_from);
        }
        self.value_line(at).map_err(|stop| match stop {
            // The key alone goes on through its run and the colon.
            Stop::At(place) if self.full() && place < run + usize::from(colon) => Stop::Deep(place),
            Stop::At(place) => Stop::At(place.max(run)),
            other => other,
        })
    }

    /// A line value and the rest of its line.
    #[inline]
    fn value_line(&mut self, at: usize) -> Step<usize> {
        let end = self.line_value(at, self.parent(), self.depth())?;
        self.value_end(end)
    }

    #[inline]
    fn value_end(&self, end: usize) -> Step<usize> {
        if self.depth() == 0 {
            self.root_end(end)
        } else {
            self.line_end(end)
        }
    }

    /// An object at `column` whose first key, with the text from `text_from` on, ends at `colon`.
    fn object(&mut self, at: usize, column: usize, colon: usize, text_from: usize) -> Step<usize> {
        if self.full() {
            return Err(Stop::Deep(colon));
        }
        self.open(Shape::Object, at, column);
        let before = self.count();
        self.tree.key(self.parent(), before, at, colon, text_from);
        self.property_value(colon)
    }

    /// A further property of the innermost container, an object.
    pub(crate) fn property(&mut self, at: usize) -> Step<usize> {
        let before = self.count();
        let colon = self.key(at, self.parent(), before)?;
        self.property_value(colon)
    }

    fn property_value(&mut self, colon: usize) -> Step<usize> {
        let column = self.top.column;
        match self.doc[colon + 1] {
            LF => self.nested(colon + 2, column + 2),
            b' ' => match self.doc[colon + 2] {
                b' ' => {
                    let start = self.line_comment(colon + 1)?;
                    self.nested(start, column + 2)
                }
                GRAVE => self.property_string(colon + 2, column),
                b'>' => self.property_bytes(colon + 2, column),
                _ => {
                    let end = self.line_value(colon + 2, self.parent(), self.depth())?;
                    self.line_end(end)
                }
            },
            _ => Err(Stop::At(colon + 1)),
        }
    }

    /// Nested content at `column` on the line at `start`.
    fn nested(&mut self, start: usize, column: usize) -> Step<usize> {
        let at = start + spaces(self.doc, start, column);
        if at < start + column {
            return Err(Stop::At(at));
        }
        match self.doc[at] {
            GRAVE => self.open_string(at, column),
            b'"' | b'\'' => self.joined_or_object(at, column),
            byte if !is_key(byte) => Err(Stop::At(at)),
            _ if self.full() => Err(Stop::Deep(at)),
            b'-' if self.doc[at + 1] == b' ' => {
                self.open(Shape::Array, at, column);
                self.item(at + 2, column + 2)
            }
            _ => {
                self.open(Shape::Object, at, column);
                self.property(at)
            }
        }
    }

    fn joined_or_object(&mut self, at: usize, column: usize) -> Step<usize> {
        let text_from = self.tree.text.len();
        let end = self.quoted(at)?;
        match self.doc[end] {
            b':' => self.object(at, column, end, text_from),
            LF => self.joined(at, column, end, text_from),
            _ => Err(Stop::At(end)),
        }
    }
}

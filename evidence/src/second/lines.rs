//! The document, its lines and the block containers they continue.

use super::scan::{run_end, spaces, LF};
use super::tree::{ARRAY, OBJECT};
use super::{Pass, Step, Stop};

#[derive(Clone, Copy, PartialEq, Eq)]
pub(crate) enum Shape {
    /// No container: only blank lines follow.
    Root,
    Array,
    /// The array of one element that a nested `- ` makes: no line continues it.
    Bullet,
    Object,
}

/// A block container that is still open.
#[derive(Clone, Copy)]
pub(crate) struct Frame {
    shape: Shape,
    row: u32,
    pub column: usize,
    count: u32,
}

impl Frame {
    pub const ROOT: Frame = Frame { shape: Shape::Root, row: 0, column: 0, count: 0 };
}

impl Pass<'_> {
    pub(crate) fn document(&mut self) -> Step<()> {
        let mut at = 0;
        while self.doc[at] == b'#' {
            at = self.comment(at)?;
        }
        at = self.root(at)?;
        while let Some(next) = self.continued(at)? {
            at = next;
        }
        while self.doc[at] == LF {
            at += 1;
        }
        if at < self.len {
            return Err(Stop::At(at));
        }
        while self.depth() > 0 {
            self.close();
        }
        Ok(())
    }

    /// A comment at `at`; gives the next line.
    pub(crate) fn comment(&self, at: usize) -> Step<usize> {
        if self.doc[at] != b'#' {
            return Err(Stop::At(at));
        }
        let end = run_end(self.doc, at + 1, LF, LF)?;
        if self.doc[end] != LF || self.doc[end - 1] == b' ' {
            return Err(Stop::At(end));
        }
        Ok(end + 1)
    }

    /// The row of the innermost open container.
    #[inline]
    pub(crate) fn parent(&self) -> u32 {
        self.top.row
    }

    /// How many containers are open.
    #[inline]
    pub(crate) fn depth(&self) -> usize {
        self.frames.len()
    }

    /// Whether no more container fits.
    #[inline]
    pub(crate) fn full(&self) -> bool {
        self.depth() == self.nesting
    }

    pub(crate) fn open(&mut self, shape: Shape, from: usize, column: usize) {
        let kind = if shape == Shape::Object { OBJECT } else { ARRAY };
        let row = self.tree.open(kind, self.parent(), from);
        self.frames.push(self.top);
        self.top = Frame { shape, row, column, count: 0 };
    }

    /// Closes the innermost container at the end of its last child.
    fn close(&mut self) {
        if let Some(outer) = self.frames.pop() {
            self.tree.close(self.top.row, self.last, self.top.count);
            self.top = outer;
        }
    }

    /// Counts one more element or pair in the innermost container; gives how many there were.
    #[inline]
    pub(crate) fn count(&mut self) -> u32 {
        self.top.count += 1;
        self.top.count - 1
    }

    /// Reads the item or property of the line at `start` and gives the next line; nothing if only
    /// blank lines can follow.
    #[inline]
    fn continued(&mut self, start: usize) -> Step<Option<usize>> {
        while self.top.shape == Shape::Bullet {
            self.close();
        }
        let reach = self.reach.max(self.top.column);
        self.reach = 0;
        let indent = spaces(self.doc, start, reach);
        let at = start + indent;
        if indent == 0 && (self.doc[at] == LF || at == self.len) {
            return Ok(None);
        }
        while self.top.column > indent {
            self.close();
        }
        match self.top.shape {
            _ if self.top.column != indent => Err(Stop::At(at)),
            Shape::Array => self.item_line(at, indent).map(Some),
            Shape::Object => self.property(at).map(Some),
            Shape::Bullet | Shape::Root => Err(Stop::At(at)),
        }
    }
}

//! Block values, each with its row. Every function writes whole lines and gives the byte after the span.

use super::super::pieces;
use super::{Grower, Here, Keys};

impl Grower<'_> {
    /// An object whose first key begins here.
    pub(super) fn object(&mut self, parent: usize, column: usize, nesting: usize) -> usize {
        let row = self.open(9, parent);
        let mut keys = Keys::default();
        let mut count = 0;
        loop {
            self.key(row, &mut keys);
            self.write(":");
            let to = self.property_value(row, column, nesting - 1);
            count += 1;
            if !self.more() {
                self.close(row, to, count);
                return to;
            }
            self.indent(column);
        }
    }

    fn property_value(&mut self, object: usize, column: usize, nesting: usize) -> usize {
        match self.rng.below(12) {
            0 => self.property_string(object, column),
            1 => self.property_bytes(object, column),
            2..=5 => {
                self.line_end();
                self.indent(column + 2);
                self.nested(object, column + 2, nesting)
            }
            _ => {
                self.write(" ");
                let to = self.value(object, true, nesting);
                self.line_end();
                to
            }
        }
    }

    /// Nested content whose first line is indented already.
    fn nested(&mut self, object: usize, column: usize, nesting: usize) -> usize {
        let small = nesting == 0 || self.doc.len() >= self.size;
        match self.rng.below(if small { 2 } else { 6 }) {
            0 => self.open_string(object, column),
            1 => self.joined(object, column),
            2 | 3 => self.array(object, column, nesting),
            _ => self.object(object, column, nesting),
        }
    }

    fn joined(&mut self, object: usize, column: usize) -> usize {
        let from = self.here();
        let mut meant = Vec::new();
        let mut lines = 0;
        loop {
            let piece = pieces::quoted(self.rng, self.rich);
            self.write(&piece.written);
            let to = self.at();
            self.write("\n");
            meant.extend_from_slice(&piece.meant);
            self.escapes += piece.escapes;
            lines += 1;
            if lines >= 2 && !self.rng.once_in(3) {
                self.leaf(6, object, (from, to), &meant);
                return to;
            }
            self.indent(column);
        }
    }

    /// An array whose first dash stands here.
    pub(super) fn array(&mut self, parent: usize, column: usize, nesting: usize) -> usize {
        let row = self.open(8, parent);
        let mut count = 0;
        loop {
            self.write("- ");
            let to = self.item(row, column + 2, nesting - 1);
            count += 1;
            if !self.more() {
                self.close(row, to, count);
                return to;
            }
            self.indent(column);
        }
    }

    fn item(&mut self, array: usize, column: usize, nesting: usize) -> usize {
        let small = nesting == 0;
        match self.rng.below(if small { 8 } else { 12 }) {
            0 => self.open_string(array, column),
            1 => self.open_bytes(array, column),
            8 | 9 => {
                let row = self.open(8, array);
                self.write("- ");
                let to = self.item(row, column + 2, nesting - 1);
                self.close(row, to, 1);
                to
            }
            10 | 11 => self.object(array, column, nesting),
            _ => {
                let to = self.value(array, true, nesting);
                self.line_end();
                to
            }
        }
    }

    pub(super) fn open_string(&mut self, parent: usize, column: usize) -> usize {
        let from = self.here();
        let leader = if self.rng.once_in(2) { pieces::text(self.rng, 1) } else { String::new() };
        self.write("`");
        if !leader.is_empty() {
            self.write(" ");
            self.write(&leader);
        }
        self.body(parent, column, from, format!("{leader}\n"))
    }

    fn property_string(&mut self, parent: usize, column: usize) -> usize {
        self.write(" ");
        let from = self.here();
        self.write("`");
        self.body(parent, column, from, String::new())
    }

    /// The leader's LF, blank lines and text lines deeper than `column`, and the row.
    fn body(&mut self, parent: usize, column: usize, from: Here, mut meant: String) -> usize {
        let mut to = self.at();
        let mut lines = Vec::new();
        self.write("\n");
        while !self.rng.once_in(3) {
            if self.rng.once_in(4) {
                lines.push((usize::MAX, String::new()));
            } else {
                let deeper = column + 1 + self.rng.below(4);
                let text = pieces::text(self.rng, 1);
                let text = if text.starts_with(' ') { format!("x{text}") } else { text };
                self.indent(deeper);
                self.write(&text);
                to = self.at();
                lines.push((deeper, text));
            }
            self.write("\n");
        }
        while lines.last().is_some_and(|(_, text)| text.is_empty()) {
            lines.pop();
        }
        let least = lines.iter().map(|line| line.0).min().unwrap_or(0);
        for (deeper, text) in lines {
            let kept = if text.is_empty() { 0 } else { deeper - least };
            meant.push_str(&" ".repeat(kept));
            meant.push_str(&text);
            meant.push('\n');
        }
        self.leaf(6, parent, (from, to), meant.as_bytes());
        to
    }

    pub(super) fn open_bytes(&mut self, parent: usize, column: usize) -> usize {
        let from = self.here();
        let mut meant = Vec::new();
        self.write("> ");
        self.hex_content(&mut meant);
        self.hex_lines(parent, column, from, meant)
    }

    fn property_bytes(&mut self, parent: usize, column: usize) -> usize {
        let mut meant = Vec::new();
        self.write(" ");
        let from = self.here();
        self.write(">");
        if self.rng.once_in(3) {
            self.write(" ");
            self.comment();
        }
        self.write("\n");
        self.hex_line(column, &mut meant);
        self.hex_lines(parent, column, from, meant)
    }

    fn hex_content(&mut self, meant: &mut Vec<u8>) {
        if self.rng.once_in(4) {
            self.comment();
            return self.write("\n");
        }
        let (written, bytes) = pieces::pairs(self.rng, 1);
        self.write(&written);
        meant.extend_from_slice(&bytes);
        self.line_end();
    }

    fn hex_line(&mut self, column: usize, meant: &mut Vec<u8>) {
        let deeper = column + 1 + self.rng.below(4);
        self.indent(deeper);
        self.hex_content(meant);
    }

    fn hex_lines(&mut self, parent: usize, column: usize, from: Here, mut meant: Vec<u8>) -> usize {
        while self.rng.once_in(2) {
            self.hex_line(column, &mut meant);
        }
        let to = self.at() - 1;
        self.leaf(7, parent, (from, to), &meant);
        to
    }
}

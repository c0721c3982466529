//! Line values, each with its row. Every function gives the byte after the span.

use super::super::pieces::{self, Spelled};
use super::{Grower, Keys};

impl Grower<'_> {
    pub(super) fn value(&mut self, parent: usize, spaced: bool, nesting: usize) -> usize {
        let small = self.doc.len() >= self.size || nesting == 0;
        match self.rng.below(if small { 8 } else { 11 }) {
            0 => self.word(parent),
            1 | 2 => self.integer(parent, spaced),
            3 => {
                let written = pieces::float(self.rng, spaced);
                self.number(5, parent, &written, written.replace(' ', "").as_bytes())
            }
            4..=6 => {
                let Spelled { written, meant, escapes } = pieces::quoted(self.rng, self.rich);
                self.escapes += escapes;
                self.number(6, parent, &written, &meant)
            }
            7 => {
                let (written, meant) = pieces::pairs(self.rng, 0);
                self.number(7, parent, &format!("<{written}>"), &meant)
            }
            8 | 9 => self.inline_array(parent, nesting - 1),
            _ => self.inline_object(parent, nesting - 1),
        }
    }

    /// Writes a scalar and its row.
    fn number(&mut self, kind: u32, parent: usize, written: &str, meant: &[u8]) -> usize {
        let from = self.here();
        self.write(written);
        let to = self.at();
        self.leaf(kind, parent, (from, to), meant);
        to
    }

    fn word(&mut self, parent: usize) -> usize {
        const WORDS: [(&str, u32); 6] =
            [("null", 1), ("false", 2), ("true", 3), ("nan", 5), ("infinity", 5), ("-infinity", 5)];
        let (word, kind) = WORDS[self.rng.below(6)];
        let meant = if kind == 5 { word } else { "" };
        self.number(kind, parent, word, meant.as_bytes())
    }

    fn integer(&mut self, parent: usize, spaced: bool) -> usize {
        let minus = self.rng.pick(&["", "", "-"]);
        let digits = pieces::digits(self.rng, spaced);
        let dense = digits.replace(' ', "");
        let meant = match dense.trim_start_matches('0') {
            "" => "0".to_string(),
            rest => format!("{minus}{rest}"),
        };
        self.number(4, parent, &format!("{minus}{digits}"), meant.as_bytes())
    }

    fn inline_array(&mut self, parent: usize, nesting: usize) -> usize {
        let row = self.open(8, parent);
        self.write("[");
        let mut count = 0;
        while count < 40 && !self.rng.once_in(4) {
            if count > 0 {
                self.write(", ");
            }
            self.value(row, false, nesting);
            count += 1;
        }
        self.write("]");
        let to = self.at();
        self.close(row, to, count);
        to
    }

    fn inline_object(&mut self, parent: usize, nesting: usize) -> usize {
        let row = self.open(9, parent);
        let mut keys = Keys::default();
        self.write("{");
        let mut count = 0;
        while count < 40 && !self.rng.once_in(4) {
            if count > 0 {
                self.write(", ");
            }
            self.key(row, &mut keys);
            self.write(": ");
            self.value(row, false, nesting);
            count += 1;
        }
        self.write("}");
        let to = self.at();
        self.close(row, to, count);
        to
    }
}

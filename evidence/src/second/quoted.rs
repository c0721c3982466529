//! Quoted strings and their escapes.

use super::scan::run_end;
use super::tree::STRING;
use super::{Pass, Step, Stop};

impl Pass<'_> {
    /// A quoted string as a value; gives the byte after it.
    pub(crate) fn quoted_value(&mut self, at: usize, parent: u32) -> Step<usize> {
        let text_from = self.tree.text.len();
        let end = self.quoted(at)?;
        self.tree.leaf(STRING, parent, at, end, text_from);
        self.last = end;
        Ok(end)
    }

    /// Decodes the quoted string at `at` into the text, and counts its escapes; gives the byte after its closing quote.
    pub(crate) fn quoted(&mut self, at: usize) -> Step<usize> {
        let doc = self.doc;
        let quote = doc[at];
        let mut from = at + 1;
        loop {
            let to = run_end(doc, from, quote, b'\\')?;
            self.tree.text.copy(doc, from, to);
            if doc[to] == quote {
                return Ok(to + 1);
            }
            if doc[to] != b'\\' {
                return Err(Stop::At(to));
            }
            from = if quote == b'"' { self.escape(to + 1)? } else { self.single_escape(to + 1) };
        }
    }

    /// What stands after a backslash in single quotes: `'` or `\` for itself. Before anything else the backslash stays,
    /// and what it stands before is read like the rest of the string, of which LF is no part; that is no escape.
    fn single_escape(&mut self, at: usize) -> usize {
        let byte = self.doc[at];
        let escaped = byte == b'\'' || byte == b'\\';
        self.tree.text.push(if escaped { byte } else { b'\\' });
        self.tree.escapes += usize::from(escaped);
        at + usize::from(escaped)
    }

    /// What stands after a backslash in double quotes, where each is an escape or refused.
    fn escape(&mut self, at: usize) -> Step<usize> {
        self.tree.escapes += 1;
        let byte = match self.doc[at] {
            byte @ (b'"' | b'\\' | b'/') => byte,
            b'b' => 8,
            b'f' => 12,
            b'n' => 10,
            b'r' => 13,
            b't' => 9,
            b'u' => return self.scalar_escape(at + 1),
            _ => return Err(Stop::At(at)),
        };
        self.tree.text.push(byte);
        Ok(at + 1)
    }

    /// `{`, one to six hex digits, `}`. Up to five digits can always go on; the sixth has to fit.
    fn scalar_escape(&mut self, open: usize) -> Step<usize> {
        if self.doc[open] != b'{' {
            return Err(Stop::At(open));
        }
        let mut value = 0;
        let mut at = open + 1;
        while let Some(digit) = char::from(self.doc[at]).to_digit(16) {
            value = value * 16 + digit;
            if at == open + 6 && char::from_u32(value).is_none() || at > open + 6 {
                return Err(Stop::At(at));
            }
            at += 1;
        }
        match char::from_u32(value) {
            Some(scalar) if self.doc[at] == b'}' && at > open + 1 => {
                let mut utf8 = [0; 4];
                self.tree.text.extend(scalar.encode_utf8(&mut utf8).as_bytes());
                Ok(at + 1)
            }
            _ => Err(Stop::At(at)),
        }
    }
}

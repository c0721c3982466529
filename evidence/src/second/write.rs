//! The second writer: a sound table as a document of the house style, made from document 02 apart from the proved one.
//! The rows are followed once, and what they are is put behind what is written already.

use super::questions::{Lent, BADROW};
use super::sound::sound;
use super::tree::{ARRAY, BYTES, FALSE, NULL, OBJECT, STRING, TEXT_FROM, TEXT_TO, TRUE};
use super::{Refusal, LONG, LONGEST, TEXT, WORDS};

/// The choices of the house style, which deliberate faults change.
#[derive(Clone, Copy)]
pub struct Style {
    /// Whether a key is written without quotes.
    pub bare: fn(&[u8]) -> bool,
    /// Puts a character between double quotes.
    pub quoted: fn(char, &mut String),
    /// Puts the hex of bytes.
    pub bytes: fn(&[u8]) -> String,
    /// Whether an array inside an array goes on one line.
    pub one_line: bool,
    /// Whether an array or object that stands in a block is a block itself, by its number of children.
    pub block: fn(u32) -> bool,
    /// Spaces a level.
    pub level: usize,
}

pub const HOUSE: Style =
    Style { bare: is_bare, quoted: put_quoted, bytes: hex, one_line: true, block: |children| children > 0, level: 2 };

/// The writer's answer: how many bytes of `out` were written, or its refusal, which leaves `out` as it was.
pub fn write(lent: &Lent, out: &mut [u8]) -> Result<usize, Refusal> {
    let bytes = written(lent)?;
    if bytes.len() > out.len() {
        return Err(Refusal { number: TEXT, place: bytes.len() });
    }
    out[..bytes.len()].copy_from_slice(&bytes);
    Ok(bytes.len())
}

/// What is written, or BADROW or LONG.
pub fn written(lent: &Lent) -> Result<Vec<u8>, Refusal> {
    if !sound(lent) {
        return Err(Refusal { number: BADROW, place: 0 });
    }
    let bytes = in_style(lent, &HOUSE);
    if bytes.len() > LONGEST {
        return Err(Refusal { number: LONG, place: 0 });
    }
    Ok(bytes)
}

/// What is written for a sound table; of a document that is too long perhaps its beginning alone.
pub fn in_style(lent: &Lent, style: &Style) -> Vec<u8> {
    let mut pen = Pen { lent, style, at: 0, out: String::new() };
    match (pen.row()[0], pen.opens()) {
        (ARRAY, true) => pen.array(0, false),
        (OBJECT, true) => pen.object(0, false),
        _ => pen.line_value(),
    }
    pen.out.into_bytes()
}

struct Pen<'a> {
    lent: &'a Lent<'a>,
    style: &'a Style,
    /// The next row.
    at: usize,
    out: String,
}

impl<'a> Pen<'a> {
    fn row(&self) -> &'a [u32; WORDS] {
        &self.lent.table.as_chunks().0[self.at]
    }

    /// Whether the next row is an array or object with something in it.
    fn opens(&self) -> bool {
        let row = self.row();
        matches!(row[0], ARRAY | OBJECT) && (self.style.block)(row[TEXT_TO])
    }

    fn children(&mut self) -> u32 {
        let children = self.row()[TEXT_TO];
        self.at += 1;
        children
    }

    fn text(&mut self) -> &'a [u8] {
        let row = self.row();
        self.at += 1;
        &self.lent.text[row[TEXT_FROM] as usize..row[TEXT_TO] as usize]
    }

    /// Nobody asks for more of a document that is too long.
    fn full(&self) -> bool {
        self.out.len() > LONGEST
    }

    /// An array's items, each on `column` spaces; the first may begin `here`.
    fn array(&mut self, column: usize, mut here: bool) {
        let inside = column + self.style.level;
        for _ in 0..self.children() {
            if self.full() {
                return;
            }
            self.line(column, &mut here);
            self.out.push_str("- ");
            match (self.row()[0], self.opens()) {
                (OBJECT, true) => self.object(inside, true),
                (ARRAY, true) if !self.style.one_line => self.array(inside, true),
                _ => self.line_value(),
            }
        }
    }

    /// An object's properties in the same way.
    fn object(&mut self, column: usize, mut here: bool) {
        let inside = column + self.style.level;
        for _ in 0..self.children() {
            if self.full() {
                return;
            }
            self.line(column, &mut here);
            self.key();
            let opens = self.opens();
            self.out.push_str(if opens { ":\n" } else { ": " });
            match (self.row()[0], opens) {
                (ARRAY, true) => self.array(inside, false),
                (OBJECT, true) => self.object(inside, false),
                _ => self.line_value(),
            }
        }
    }

    /// Begins a line, unless it has begun `here`.
    fn line(&mut self, column: usize, here: &mut bool) {
        if !std::mem::take(here) {
            self.out.extend(std::iter::repeat_n(' ', column));
        }
    }

    fn line_value(&mut self) {
        self.inline();
        self.out.push('\n');
    }

    /// A value on one line, with all that is below it.
    fn inline(&mut self) {
        match self.row()[0] {
            NULL => self.word("null"),
            FALSE => self.word("false"),
            TRUE => self.word("true"),
            STRING => {
                let text = self.text();
                self.string(text);
            }
            BYTES => {
                let bytes = (self.style.bytes)(self.text());
                self.out.push_str(&format!("<{bytes}>"));
            }
            ARRAY => self.list('[', ']', Self::inline),
            OBJECT => self.list('{', '}', |pen| {
                pen.key();
                pen.out.push_str(": ");
                pen.inline();
            }),
            _ => {
                let number = self.text();
                self.out.push_str(&String::from_utf8_lossy(number));
            }
        }
    }

    fn list(&mut self, open: char, close: char, entry: fn(&mut Self)) {
        self.out.push(open);
        for i in 0..self.children() {
            if self.full() {
                return;
            }
            self.out.push_str(if i == 0 { "" } else { ", " });
            entry(self);
        }
        self.out.push(close);
    }

    fn word(&mut self, word: &str) {
        self.at += 1;
        self.out.push_str(word);
    }

    fn key(&mut self) {
        let key = self.text();
        if (self.style.bare)(key) {
            self.out.push_str(&String::from_utf8_lossy(key));
        } else {
            self.string(key);
        }
    }

    fn string(&mut self, text: &[u8]) {
        self.out.push('"');
        for character in String::from_utf8_lossy(text).chars() {
            (self.style.quoted)(character, &mut self.out);
        }
        self.out.push('"');
    }
}

/// Letters, digits, `_` and `-`, at least one.
pub fn is_bare(key: &[u8]) -> bool {
    !key.is_empty() && key.iter().all(|&byte| byte.is_ascii_alphanumeric() || byte == b'_' || byte == b'-')
}

/// Quote, backslash and the five lettered escapes short, other characters that no document may have as `\u{…}`.
pub fn put_quoted(character: char, out: &mut String) {
    match character {
        '"' => out.push_str("\\\""),
        '\\' => out.push_str("\\\\"),
        '\u{8}' => out.push_str("\\b"),
        '\u{c}' => out.push_str("\\f"),
        '\n' => out.push_str("\\n"),
        '\r' => out.push_str("\\r"),
        '\t' => out.push_str("\\t"),
        other if is_allowed(other) => out.push(other),
        other => out.push_str(&format!("\\u{{{:x}}}", u32::from(other))),
    }
}

/// Whether a document's line may have this character.
pub fn is_allowed(character: char) -> bool {
    match character {
        ' '..='~' => true,
        '\u{a0}'..='\u{fdcf}' | '\u{fdf0}'..='\u{fffd}' => true,
        '\u{10000}'.. => u32::from(character) & 0xfffe != 0xfffe,
        _ => false,
    }
}

/// Lowercase, without spaces.
pub fn hex(bytes: &[u8]) -> String {
    bytes.iter().map(|byte| format!("{byte:02x}")).collect()
}

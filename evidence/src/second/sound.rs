//! Whether a lent table is sound: whether the tree of some document of any length, with at most 32 containers one inside
//! another and no repeated key, gives its rows and text, spans, lines and columns aside. Made from document 02 apart from
//! the proved test: the rows are walked from the root by kinds and counts alone, and all that they say besides must be
//! what the walk knows already.

use super::questions::Lent;
use super::tree::{ARRAY, BYTES, FLOAT, INTEGER, KEY, NEXT, NULL, OBJECT, PARENT, STRING, TEXT_FROM, TEXT_TO, TRUE};
use super::{MOST, NESTING, WORDS};
use std::collections::HashSet;

/// What is tested of a table. A deliberate fault passes over one of them.
#[derive(Clone, Copy, PartialEq, Eq, Debug)]
pub enum Test {
    /// The table has the words of all its rows.
    Words,
    /// At most 16,777,216 rows, and as many bytes of text.
    Most,
    /// The tree has as many rows as are counted.
    Rows,
    /// A value's kind is 1 to 9.
    Kind,
    /// In an object every other row is a key's.
    KeyKind,
    /// A row's parent is the container it stands in; the root's is 0.
    Parent,
    /// The seventh word of a value is the row after its last descendant.
    Next,
    /// A key's is the row after it.
    KeyNext,
    /// Kinds 1 to 3 have 0 in both text words.
    Empty,
    /// An array's or object's text start is 0.
    Start,
    /// No byte is left out between texts.
    Gap,
    /// No byte belongs to two texts.
    Overlap,
    /// An integer's text is digits, behind a minus or not.
    Digits,
    /// It has no leading zero.
    LeadingZero,
    /// Zero has no minus.
    MinusZero,
    /// A float's text is a float of the grammar without its spaces.
    Float,
    /// A string is UTF-8 of scalar values.
    String,
    /// So is a key.
    KeyString,
    /// No key stands twice in an object.
    Repeat,
    /// At most 32 containers one inside another.
    Nesting,
}

/// Every test, and what is let in where it is passed over.
pub const TESTS: [(Test, &str); 20] = [
    (Test::Words, "a table shorter than its rows"),
    (Test::Most, "one row or byte of text more than 16,777,216"),
    (Test::Rows, "rows behind the tree"),
    (Test::Kind, "a kind that no value has"),
    (Test::KeyKind, "a key of another kind"),
    (Test::Parent, "a parent that is another row"),
    (Test::Next, "a row after the last descendant that is another"),
    (Test::KeyNext, "the same of a key"),
    (Test::Empty, "text words of null, false and true"),
    (Test::Start, "a text start of an array or object"),
    (Test::Gap, "a gap between texts"),
    (Test::Overlap, "texts that overlap"),
    (Test::Digits, "an integer's text that is no digits"),
    (Test::LeadingZero, "an integer with a leading zero"),
    (Test::MinusZero, "the integer -0"),
    (Test::Float, "a float's text that is no float"),
    (Test::String, "a string that is no UTF-8"),
    (Test::KeyString, "a key that is no UTF-8"),
    (Test::Repeat, "a repeated key"),
    (Test::Nesting, "33 levels"),
];

pub fn sound(lent: &Lent) -> bool {
    used(lent, None).is_some()
}

/// How many bytes of the text room a sound table uses. A test may be passed over.
pub fn used(lent: &Lent, but: Option<Test>) -> Option<usize> {
    let most = if but == Some(Test::Most) { usize::MAX } else { MOST };
    let (words, _) = lent.table.as_chunks();
    let rows = if but == Some(Test::Words) { lent.rows.min(words.len()) } else { lent.rows };
    if rows > most {
        return None;
    }
    let text = &lent.text[..lent.text.len().min(most)];
    let mut walk = Walk { rows: words.get(..rows)?, text, at: 0, place: 0, but };
    walk.value(0, 0)?;
    walk.test(Test::Rows, walk.at == rows)?;
    Some(walk.place)
}

struct Walk<'a> {
    rows: &'a [[u32; WORDS]],
    text: &'a [u8],
    /// The next row.
    at: usize,
    /// Where the next text begins.
    place: usize,
    but: Option<Test>,
}

impl<'a> Walk<'a> {
    fn test(&self, test: Test, holds: bool) -> Option<()> {
        (holds || self.but == Some(test)).then_some(())
    }

    /// The next row, which stands in this one.
    fn row(&mut self, parent: usize) -> Option<&'a [u32; WORDS]> {
        let words = self.rows.get(self.at)?;
        self.at += 1;
        self.test(Test::Parent, words[PARENT] as usize == parent)?;
        Some(words)
    }

    /// A value with all that is in it; `around` containers are around it.
    fn value(&mut self, parent: usize, around: usize) -> Option<()> {
        let row = self.at;
        let words = self.row(parent)?;
        match words[0] {
            NULL..=TRUE => self.test(Test::Empty, words[TEXT_FROM] == 0 && words[TEXT_TO] == 0)?,
            INTEGER => self.integer(words)?,
            FLOAT => {
                let text = self.text(words)?;
                self.test(Test::Float, is_float(text))?;
            }
            STRING => {
                let text = self.text(words)?;
                self.test(Test::String, std::str::from_utf8(text).is_ok())?;
            }
            BYTES => drop(self.text(words)?),
            ARRAY | OBJECT => self.container(row, words, around)?,
            _ => self.test(Test::Kind, false)?,
        }
        self.test(Test::Next, words[NEXT] as usize == self.at)
    }

    fn container(&mut self, row: usize, words: &[u32; WORDS], around: usize) -> Option<()> {
        self.test(Test::Nesting, around < NESTING)?;
        // One more is enough for a fault.
        if around > NESTING {
            return None;
        }
        self.test(Test::Start, words[TEXT_FROM] == 0)?;
        let mut keys = HashSet::new();
        for _ in 0..words[TEXT_TO] {
            if words[0] == OBJECT {
                let key = self.key(row)?;
                self.test(Test::Repeat, keys.insert(key))?;
            }
            self.value(row, around + 1)?;
        }
        Some(())
    }

    fn key(&mut self, object: usize) -> Option<&'a [u8]> {
        let words = self.row(object)?;
        self.test(Test::KeyKind, words[0] == KEY)?;
        self.test(Test::KeyNext, words[NEXT] as usize == self.at)?;
        let key = self.text(words)?;
        self.test(Test::KeyString, std::str::from_utf8(key).is_ok())?;
        Some(key)
    }

    /// A row's text, which begins where the one before ends.
    fn text(&mut self, words: &[u32; WORDS]) -> Option<&'a [u8]> {
        let (from, to) = (words[TEXT_FROM] as usize, words[TEXT_TO] as usize);
        self.test(Test::Gap, from <= self.place)?;
        self.test(Test::Overlap, from >= self.place)?;
        self.place = to;
        self.text.get(from..to)
    }

    fn integer(&mut self, words: &[u32; WORDS]) -> Option<()> {
        let text = self.text(words)?;
        let digits = without(text, b"-");
        self.test(Test::Digits, is_digits(digits))?;
        self.test(Test::LeadingZero, digits.len() < 2 || digits[0] != b'0')?;
        self.test(Test::MinusZero, text != b"-0")
    }
}

fn is_digits(text: &[u8]) -> bool {
    !text.is_empty() && text.iter().all(u8::is_ascii_digit)
}

/// Whether a text is a float of the grammar without its spaces.
pub fn is_float(text: &[u8]) -> bool {
    if matches!(text, b"nan" | b"infinity" | b"-infinity") {
        return true;
    }
    let (before, exponent) = cut(without(text, b"-"), b'e');
    let power = exponent.is_none_or(|power| is_digits(without(power, b"+-")));
    let mantissa = match cut(before, b'.') {
        (whole, None) => is_digits(whole) && exponent.is_some(),
        (whole, Some(b"")) => is_digits(whole),
        (b"", Some(part)) => is_digits(part),
        (whole, Some(part)) => is_digits(whole) && is_digits(part),
    };
    mantissa && power
}

/// A text without its sign, if its first byte is one of these.
fn without<'a>(text: &'a [u8], signs: &[u8]) -> &'a [u8] {
    match text {
        [first, rest @ ..] if signs.contains(first) => rest,
        _ => text,
    }
}

/// What stands before the first `mark` and, if there is one, behind it.
fn cut(text: &[u8], mark: u8) -> (&[u8], Option<&[u8]>) {
    match text.iter().position(|&byte| byte == mark) {
        Some(at) => (&text[..at], Some(&text[at + 1..])),
        None => (text, None),
    }
}

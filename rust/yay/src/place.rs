//! Places of a document, as bytes and as line and column.

use std::fmt;

/// A place in a document, in bytes from 0. A [`Row`](crate::Row) is never taken for one.
#[derive(Clone, Copy, PartialEq, Eq, PartialOrd, Ord, Hash, Debug)]
pub struct Place(pub usize);

/// A place as people count: both from 1, a column for each character, or byte that belongs to none.
#[derive(Clone, Copy, PartialEq, Eq, PartialOrd, Ord, Hash, Debug)]
pub struct Position {
    pub line: usize,
    pub column: usize,
}

impl fmt::Display for Position {
    fn fmt(&self, out: &mut fmt::Formatter) -> fmt::Result {
        write!(out, "{}:{}", self.line, self.column)
    }
}

/// Where a place stands; of a place inside a character, where that begins. Past the end it is the end. A row's own
/// position is in the table already: [`Tree::position`](crate::Tree::position).
///
/// ```
/// let doc = "a: 1\n\"Größe\": [1,2]\n".as_bytes();
/// let refusal = yay::Document::read(doc).unwrap_err();
/// assert_eq!(yay::position(doc, refusal.place).to_string(), "2:13");
/// ```
pub fn position(doc: &[u8], place: Place) -> Position {
    let (start, end) = line_around(doc, place);
    let line = 1 + doc[..start].iter().filter(|byte| **byte == b'\n').count();
    let before = place.0.min(doc.len()) - start;
    let mut column = 1;
    let mut to = 0;
    for chunk in doc[start..end].utf8_chunks() {
        let lengths = chunk.valid().chars().map(char::len_utf8).chain(chunk.invalid().iter().map(|_| 1));
        for length in lengths {
            to += length;
            column += usize::from(to <= before);
        }
    }
    Position { line, column }
}

/// The first byte of the place's line, and its LF or the document's end.
pub fn line_around(doc: &[u8], place: Place) -> (usize, usize) {
    let place = place.0.min(doc.len());
    let start = doc[..place].iter().rposition(|byte| *byte == b'\n').map_or(0, |at| at + 1);
    let end = doc[place..].iter().position(|byte| *byte == b'\n').map_or(doc.len(), |at| place + at);
    (start, end)
}

#[cfg(test)]
mod tests {
    use super::*;

    fn at(doc: &[u8], place: usize) -> (usize, usize) {
        let position = position(doc, Place(place));
        (position.line, position.column)
    }

    #[test]
    fn lines_and_columns_count_from_one() {
        assert_eq!(at(b"", 0), (1, 1));
        assert_eq!(at(b"a: 1 \n", 5), (1, 6));
        assert_eq!(at(b"a: 1\nb", 6), (2, 2));
        assert_eq!(at(b"a: 1\n", 5), (2, 1));
        assert_eq!(at(b"a: 1\n", 99), (2, 1));
    }

    #[test]
    fn columns_are_characters() {
        assert_eq!(at("日本x\n".as_bytes(), 6), (1, 3));
        assert_eq!(at("日本x\n".as_bytes(), 4), (1, 2));
        assert_eq!(at(b"\xe6\x97x\n", 2), (1, 3));
        assert_eq!(at(b"\xed\xa0\x80x\n", 3), (1, 4));
        assert_eq!(at(b"a:\tx", 2), (1, 3));
    }
}

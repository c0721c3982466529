//! Where the rows of an accepted document stand, counted again from the words of document 02 alone: to hold the second
//! reader to it, to see that every case is met often, and for readers that count wrong.

use crate::second::WORDS;

/// The places in a row of its first byte, its line and its column.
pub const FROM: usize = 1;
pub const LINE: usize = 7;
pub const COLUMN: usize = 8;

/// In longer documents places are counted from one row to the next, not from the start for each.
const SHORT: usize = 2_000;

/// The part of a place's line before it.
pub fn before(doc: &[u8], place: usize) -> &str {
    let before = std::str::from_utf8(&doc[..place]).expect("an accepted document");
    before.rsplit('\n').next().unwrap_or_default()
}

/// A place's line: one, and the line feeds before it.
pub fn line(doc: &[u8], place: usize) -> u32 {
    1 + doc[..place].iter().filter(|&&byte| byte == b'\n').count() as u32
}

/// A place's column: one, and the characters between the last line feed and it.
pub fn column(doc: &[u8], place: usize) -> u32 {
    1 + before(doc, place).chars().count() as u32
}

/// Whether each row of a document has its line and column.
pub fn agree(doc: &[u8], words: &[u32]) -> bool {
    let mut rows = words.chunks_exact(WORDS);
    if doc.len() <= SHORT {
        return rows.all(|row| {
            let from = row[FROM] as usize;
            (row[LINE], row[COLUMN]) == (line(doc, from), column(doc, from))
        });
    }
    let (mut at, mut line, mut column) = (0, 1, 1);
    rows.all(|row| {
        let from = row[FROM] as usize;
        let Some(between) = doc.get(at..from) else { return false };
        for byte in between {
            match byte {
                b'\n' => (line, column) = (line + 1, 1),
                0x80..=0xBF => {}
                _ => column += 1,
            }
        }
        at = from;
        (row[LINE], row[COLUMN]) == (line, column)
    })
}

/// What is counted, in this order.
pub const NAMES: [&str; 6] = [
    "in the first line",
    "in later lines",
    "below a comment before the root",
    "behind characters of two bytes",
    "of three",
    "of four",
];

/// Counts a row by its place, in documents that are not too long.
pub fn count(doc: &[u8], row: &[u32], counts: &mut [usize; NAMES.len()]) {
    if doc.len() > SHORT {
        return;
    }
    let before = before(doc, row[FROM] as usize);
    let wide = |bytes| before.chars().any(|character| character.len_utf8() == bytes);
    let met = [row[LINE] == 1, row[LINE] > 1, doc[0] == b'#', wide(2), wide(3), wide(4)];
    counts.iter_mut().zip(met).for_each(|(sum, met)| *sum += usize::from(met));
}

//! The line and column of each row, told when all rows are there: they stand in the order of their first bytes, so one
//! look over the document is enough.

use super::scan::LF;
use super::tree::{COLUMN, LINE, SPAN_FROM};
use super::WORDS;

/// Puts line and column into every row. An accepted document is UTF-8, so each character has one byte that continues
/// none.
pub fn tell(doc: &[u8], rows: &mut [[u32; WORDS]]) {
    let (mut at, mut line, mut column) = (0, 1, 1);
    for row in rows {
        let from = row[SPAN_FROM] as usize;
        let lines = count(&doc[at..from], |byte| byte == LF);
        if lines > 0 {
            line += lines;
            column = 1;
            at = line_start(doc, from);
        }
        column += count(&doc[at..from], |byte| byte & 0xC0 != 0x80);
        at = from;
        (row[LINE], row[COLUMN]) = (line, column);
    }
}

fn line_start(doc: &[u8], at: usize) -> usize {
    doc[..at].iter().rposition(|&byte| byte == LF).map_or(0, |lf| lf + 1)
}

/// How many bytes are so; 255 at a time, so that a byte is enough to count in.
#[inline]
fn count(bytes: &[u8], is: impl Fn(u8) -> bool) -> u32 {
    bytes.chunks(255).map(|chunk| u32::from(chunk.iter().map(|&byte| u8::from(is(byte))).sum::<u8>())).sum()
}

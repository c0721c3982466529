//! The questions of document 01, asked of any lent table and text room.

use super::tree::{BYTES, INTEGER, KEY, OBJECT};
use super::{MOST, WORDS};
use std::cmp::Ordering;
use std::ops::Range;

pub const BADROW: u32 = 9;
pub const NONE: u32 = 10;
pub const NOTINT: u32 = 11;

/// What was lent: a table of words, its row count and the text room. It counts for at most 16,777,216 rows and as many
/// text bytes, however long it is.
#[derive(Clone, Copy)]
pub struct Lent<'a> {
    pub table: &'a [u32],
    pub rows: usize,
    pub text: &'a [u8],
}

impl<'a> Lent<'a> {
    /// The words of a good row.
    fn row(&self, row: usize) -> Option<&'a [u32; WORDS]> {
        if row >= self.rows.min(MOST) {
            return None;
        }
        self.table.get(row.checked_mul(WORDS)?..)?.first_chunk()
    }

    /// Where a row's text stands in the text room, or BADROW.
    pub fn row_text(&self, row: usize) -> Result<Range<usize>, u32> {
        let words = self.row(row).ok_or(BADROW)?;
        let (from, to) = (words[3] as usize, words[4] as usize);
        let has_text = matches!(words[0], INTEGER..=BYTES | KEY);
        if has_text && from <= to && to <= self.text.len().min(MOST) {
            Ok(from..to)
        } else {
            Err(BADROW)
        }
    }

    /// The row of a key's value in an object's row, NONE or BADROW.
    pub fn find_key(&self, object: usize, key: &[u8]) -> Result<usize, u32> {
        let words = self.row(object).ok_or(BADROW)?;
        if words[0] != OBJECT {
            return Err(BADROW);
        }
        let end = words[6] as usize;
        let mut at = object + 1;
        while at < end {
            let words = self.row(at).ok_or(BADROW)?;
            let text = self.row_text(at)?;
            if words[0] != KEY {
                return Err(BADROW);
            }
            let value = self.row(at + 1).ok_or(BADROW)?;
            if self.text[text] == *key {
                return Ok(at + 1);
            }
            let next = value[6] as usize;
            if next <= at + 1 || next > end {
                return Err(BADROW);
            }
            at = next;
        }
        Err(NONE)
    }
}

/// The sign and digits of an integer's text.
fn integer(text: &[u8]) -> Option<(bool, &[u8])> {
    let (negative, digits) = match text {
        [b'-', digits @ ..] => (true, digits),
        digits => (false, digits),
    };
    let plain = digits.iter().all(u8::is_ascii_digit);
    match digits {
        [b'0'] if !negative => Some((false, digits)),
        [b'1'..=b'9', ..] if plain => Some((negative, digits)),
        _ => None,
    }
}

/// -1, 0 or 1 by numeric order, or NOTINT.
pub fn compare_integers(left: &[u8], right: &[u8]) -> Result<i32, u32> {
    let (left_negative, left) = integer(left).ok_or(NOTINT)?;
    let (right_negative, right) = integer(right).ok_or(NOTINT)?;
    let sizes = left.len().cmp(&right.len()).then_with(|| left.cmp(right));
    let order = match (left_negative, right_negative) {
        (false, false) => sizes,
        (true, true) => sizes.reverse(),
        (true, false) => Ordering::Less,
        (false, true) => Ordering::Greater,
    };
    Ok(order as i32)
}

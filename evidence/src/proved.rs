//! The proved library behind its C interface, include/yay.h (feature `proved`).

#[cfg(feature = "decided")]
use crate::compare::deciding::Decider;
#[cfg(feature = "overlaid")]
use crate::compare::overlaying::Lays;
#[cfg(feature = "stored")]
use crate::compare::storing::Stores;
#[cfg(feature = "written")]
use crate::compare::writing::Writer;
use crate::compare::{Questions, Reader, Said};
#[cfg(feature = "overlaid")]
use crate::second::overlay::Told;
use crate::second::questions::Lent;
use std::ops::Range;

extern "C" {
    fn yay_read(
        doc: *const u8,
        doc_len: usize,
        table: *mut u32,
        table_words: usize,
        text: *mut u8,
        text_len: usize,
        first: *mut usize,
        second: *mut usize,
        third: *mut usize,
    ) -> u32;
    fn yay_text(
        table: *const u32,
        words: usize,
        rows: usize,
        text: *const u8,
        text_len: usize,
        row: usize,
        from: *mut usize,
        to: *mut usize,
    ) -> u32;
    fn yay_find(
        table: *const u32,
        words: usize,
        rows: usize,
        text: *const u8,
        text_len: usize,
        object: usize,
        key: *const u8,
        key_len: usize,
        value: *mut usize,
    ) -> u32;
    fn yay_compare(left: *const u8, left_len: usize, right: *const u8, right_len: usize, order: *mut i32) -> u32;
    #[cfg(feature = "written")]
    fn yay_sound(table: *const u32, words: usize, rows: usize, text: *const u8, text_len: usize) -> u32;
    #[cfg(feature = "written")]
    fn yay_write(
        table: *const u32,
        words: usize,
        rows: usize,
        text: *const u8,
        text_len: usize,
        out: *mut u8,
        out_len: usize,
        count: *mut usize,
    ) -> u32;
    #[cfg(feature = "decided")]
    fn yay_decide(
        sheet: *const u32,
        sheet_words: usize,
        sheet_rows: usize,
        sheet_text: *const u8,
        sheet_text_len: usize,
        installed: *const u32,
        installed_words: usize,
        installed_rows: usize,
        installed_text: *const u8,
        installed_text_len: usize,
        decision: *mut u32,
    ) -> u32;
    #[cfg(feature = "overlaid")]
    fn yay_overlay(
        lower: *const u32,
        lower_words: usize,
        lower_rows: usize,
        lower_text: *const u8,
        lower_text_len: usize,
        upper: *const u32,
        upper_words: usize,
        upper_rows: usize,
        upper_text: *const u8,
        upper_text_len: usize,
        table: *mut u32,
        table_words: usize,
        text: *mut u8,
        text_len: usize,
        first: *mut usize,
        second: *mut usize,
    ) -> u32;
    #[cfg(feature = "stored")]
    fn yay_store(
        table: *const u32,
        words: usize,
        rows: usize,
        text: *const u8,
        text_len: usize,
        out: *mut u8,
        out_len: usize,
        count: *mut usize,
    ) -> u32;
    #[cfg(feature = "stored")]
    fn yay_load(
        stored: *const u8,
        stored_len: usize,
        table: *mut u32,
        table_words: usize,
        text: *mut u8,
        text_len: usize,
        first: *mut usize,
        second: *mut usize,
    ) -> u32;
}

/// What answers hold before a call.
const UNSET: usize = 77;
/// Stands for a question's number whose answer is not the 0 that the header promises; nobody expects it.
const UNTRUE: u32 = 1000;

pub struct Proved;

impl Reader for Proved {
    fn read(&mut self, doc: &[u8], table: &mut [u32], room: &mut [u8]) -> Said {
        let [mut first, mut second, mut third] = [UNSET; 3];
        let (words, bytes) = (table.len(), room.len());
        // SAFETY: every pointer and length is that of a live slice, and the three answers are apart from them.
        let number = unsafe {
            yay_read(
                doc.as_ptr(),
                doc.len(),
                table.as_mut_ptr(),
                words,
                room.as_mut_ptr(),
                bytes,
                &mut first,
                &mut second,
                &mut third,
            )
        };
        Said { number, values: [first, second, third] }
    }

    fn questions(&self) -> Option<&dyn Questions> {
        Some(self)
    }
}

impl Questions for Proved {
    fn row_text(&self, lent: &Lent, row: usize) -> Result<Range<usize>, u32> {
        let Lent { table, rows, text } = *lent;
        let (mut from, mut to) = (UNSET, UNSET);
        // SAFETY: every pointer and length is that of a live slice, and the two answers are apart from them.
        let number =
            unsafe { yay_text(table.as_ptr(), table.len(), rows, text.as_ptr(), text.len(), row, &mut from, &mut to) };
        answered(number, from..to, 0..0)
    }

    fn find_key(&self, lent: &Lent, object: usize, key: &[u8]) -> Result<usize, u32> {
        let Lent { table, rows, text } = *lent;
        let (words, bytes) = (table.len(), text.len());
        let (table, text) = (table.as_ptr(), text.as_ptr());
        let mut value = UNSET;
        // SAFETY: every pointer and length is that of a live slice, and the answer is apart from them.
        let number = unsafe { yay_find(table, words, rows, text, bytes, object, key.as_ptr(), key.len(), &mut value) };
        answered(number, value, 0)
    }

    fn compare_integers(&self, left: &[u8], right: &[u8]) -> Result<i32, u32> {
        let mut order = UNSET as i32;
        // SAFETY: every pointer and length is that of a live slice, and the answer is apart from them.
        let number = unsafe { yay_compare(left.as_ptr(), left.len(), right.as_ptr(), right.len(), &mut order) };
        answered(number, order, 0)
    }
}

#[cfg(feature = "written")]
impl Writer for Proved {
    fn sound(&self, lent: &Lent) -> u32 {
        let Lent { table, rows, text } = *lent;
        // SAFETY: every pointer and length is that of a live slice.
        unsafe { yay_sound(table.as_ptr(), table.len(), rows, text.as_ptr(), text.len()) }
    }

    fn write(&self, lent: &Lent, out: &mut [u8]) -> (u32, usize) {
        let Lent { table, rows, text } = *lent;
        let (words, bytes, room) = (table.len(), text.len(), out.len());
        let (table, text, out) = (table.as_ptr(), text.as_ptr(), out.as_mut_ptr());
        let mut count = UNSET;
        // SAFETY: every pointer and length is that of a live slice, the output is borrowed by this call alone, and the
        // answer is apart from all of them.
        let number = unsafe { yay_write(table, words, rows, text, bytes, out, room, &mut count) };
        (number, count)
    }
}

#[cfg(feature = "decided")]
impl Decider for Proved {
    fn decide(&self, sheet: &Lent, installed: &Lent) -> (u32, u32) {
        let mut decision = UNSET as u32;
        // SAFETY: every pointer and length is that of a live slice, and the answer is apart from them.
        let number = unsafe {
            yay_decide(
                sheet.table.as_ptr(),
                sheet.table.len(),
                sheet.rows,
                sheet.text.as_ptr(),
                sheet.text.len(),
                installed.table.as_ptr(),
                installed.table.len(),
                installed.rows,
                installed.text.as_ptr(),
                installed.text.len(),
                &mut decision,
            )
        };
        (number, decision)
    }
}

#[cfg(feature = "overlaid")]
impl Lays for Proved {
    fn lay(&self, lower: &Lent, upper: &Lent, table: &mut [u32], text: &mut [u8]) -> Told {
        let (mut first, mut second) = (UNSET, UNSET);
        let (words, bytes) = (table.len(), text.len());
        // SAFETY: every pointer and length is that of a live slice, both targets are borrowed by this call alone, and the
        // two answers are apart from all of them.
        let number = unsafe {
            yay_overlay(
                lower.table.as_ptr(),
                lower.table.len(),
                lower.rows,
                lower.text.as_ptr(),
                lower.text.len(),
                upper.table.as_ptr(),
                upper.table.len(),
                upper.rows,
                upper.text.as_ptr(),
                upper.text.len(),
                table.as_mut_ptr(),
                words,
                text.as_mut_ptr(),
                bytes,
                &mut first,
                &mut second,
            )
        };
        (number, first, second)
    }
}

#[cfg(feature = "stored")]
impl Stores for Proved {
    fn store(&self, lent: &Lent, out: &mut [u8]) -> (u32, usize) {
        let Lent { table, rows, text } = *lent;
        let (words, bytes, room) = (table.len(), text.len(), out.len());
        let (table, text, out) = (table.as_ptr(), text.as_ptr(), out.as_mut_ptr());
        let mut count = UNSET;
        // SAFETY: every pointer and length is that of a live slice, the output is borrowed by this call alone, and the
        // answer is apart from all of them.
        let number = unsafe { yay_store(table, words, rows, text, bytes, out, room, &mut count) };
        (number, count)
    }

    fn load(&self, stored: &[u8], table: &mut [u32], text: &mut [u8]) -> Told {
        let (mut first, mut second) = (UNSET, UNSET);
        let (words, bytes) = (table.len(), text.len());
        let (table, text) = (table.as_mut_ptr(), text.as_mut_ptr());
        // SAFETY: every pointer and length is that of a live slice, both targets are borrowed by this call alone, and the
        // two answers are apart from all of them.
        let number =
            unsafe { yay_load(stored.as_ptr(), stored.len(), table, words, text, bytes, &mut first, &mut second) };
        (number, first, second)
    }
}

/// What was answered, or the number of a refusal, where the answer must be `nothing`.
fn answered<T: PartialEq>(number: u32, answer: T, nothing: T) -> Result<T, u32> {
    match number {
        0 => Ok(answer),
        number if answer == nothing => Err(number),
        _ => Err(UNTRUE),
    }
}

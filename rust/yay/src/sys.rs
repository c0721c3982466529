//! The functions of include/yay.h, each behind a safe one of the same meaning.

mod linked {
    extern "C" {
        pub fn yay_read(
            doc: *const u8,
            doc_len: usize,
            table: *mut u32,
            table_words: usize,
            text: *mut u8,
            text_len: usize,
            first: *mut usize,
            second: *mut usize,
            third: *mut usize,
        ) -> u32;
        pub fn yay_text(
            table: *const u32,
            words: usize,
            rows: usize,
            text: *const u8,
            text_len: usize,
            row: usize,
            from: *mut usize,
            to: *mut usize,
        ) -> u32;
        pub fn yay_find(
            table: *const u32,
            words: usize,
            rows: usize,
            text: *const u8,
            text_len: usize,
            object: usize,
            key: *const u8,
            key_len: usize,
            value: *mut usize,
        ) -> u32;
        pub fn yay_compare(
            left: *const u8,
            left_len: usize,
            right: *const u8,
            right_len: usize,
            order: *mut i32,
        ) -> u32;
        pub fn yay_sound(table: *const u32, words: usize, rows: usize, text: *const u8, text_len: usize) -> u32;
        pub fn yay_write(
            table: *const u32,
            words: usize,
            rows: usize,
            text: *const u8,
            text_len: usize,
            out: *mut u8,
            out_len: usize,
            count: *mut usize,
        ) -> u32;
        pub fn yay_decide(
            sheet: *const u32,
            sheet_words: usize,
            sheet_rows: usize,
            sheet_text: *const u8,
            sheet_text_len: usize,
            installed: *const u32,
            installed_words: usize,
            installed_rows: usize,
            installed_text: *const u8,
            installed_text_len: usize,
            decision: *mut u32,
        ) -> u32;
        pub fn yay_overlay(
            lower: *const u32,
            lower_words: usize,
            lower_rows: usize,
            lower_text: *const u8,
            lower_text_len: usize,
            upper: *const u32,
            upper_words: usize,
            upper_rows: usize,
            upper_text: *const u8,
            upper_text_len: usize,
            table: *mut u32,
            table_words: usize,
            text: *mut u8,
            text_len: usize,
            first: *mut usize,
            second: *mut usize,
        ) -> u32;
        pub fn yay_store(
            table: *const u32,
            words: usize,
            rows: usize,
            text: *const u8,
            text_len: usize,
            out: *mut u8,
            out_len: usize,
            count: *mut usize,
        ) -> u32;
        pub fn yay_load(
            stored: *const u8,
            stored_len: usize,
            table: *mut u32,
            table_words: usize,
            text: *mut u8,
            text_len: usize,
            first: *mut usize,
            second: *mut usize,
        ) -> u32;
    }
}

/// 0, rows, text bytes and escapes; or the number, the place, 0 and 0.
pub fn read(doc: &[u8], table: &mut [u32], text: &mut [u8]) -> (u32, usize, usize, usize) {
    let (mut first, mut second, mut third) = (0, 0, 0);
    let (words, bytes) = (table.len(), text.len());
    // SAFETY: each pointer and length is that of a live slice, the two lent for writing are borrowed by this call
    // alone, and the three answers are apart from each other and from them.
    let number = unsafe {
        linked::yay_read(
            doc.as_ptr(),
            doc.len(),
            table.as_mut_ptr(),
            words,
            text.as_mut_ptr(),
            bytes,
            &mut first,
            &mut second,
            &mut third,
        )
    };
    (number, first, second, third)
}

/// 0 and the part of the text room; or the number, 0 and 0.
pub fn text(table: &[u32], rows: usize, text: &[u8], row: usize) -> (u32, usize, usize) {
    let (mut from, mut to) = (0, 0);
    // SAFETY: each pointer and length is that of a live slice, and the two answers are apart.
    let number = unsafe {
        linked::yay_text(table.as_ptr(), table.len(), rows, text.as_ptr(), text.len(), row, &mut from, &mut to)
    };
    (number, from, to)
}

/// 0 and the value's row; or the number and 0.
pub fn find(table: &[u32], rows: usize, text: &[u8], object: usize, key: &[u8]) -> (u32, usize) {
    let mut value = 0;
    // SAFETY: each pointer and length is that of a live slice, and the answer is apart from them.
    let number = unsafe {
        linked::yay_find(
            table.as_ptr(),
            table.len(),
            rows,
            text.as_ptr(),
            text.len(),
            object,
            key.as_ptr(),
            key.len(),
            &mut value,
        )
    };
    (number, value)
}

/// 0 and -1, 0 or 1; or the number and 0.
pub fn compare(left: &[u8], right: &[u8]) -> (u32, i32) {
    let mut order = 0;
    // SAFETY: each pointer and length is that of a live slice, and the answer is apart from them.
    let number = unsafe { linked::yay_compare(left.as_ptr(), left.len(), right.as_ptr(), right.len(), &mut order) };
    (number, order)
}

/// 0, or the number.
pub fn sound(table: &[u32], rows: usize, text: &[u8]) -> u32 {
    // SAFETY: each pointer and length is that of a live slice.
    unsafe { linked::yay_sound(table.as_ptr(), table.len(), rows, text.as_ptr(), text.len()) }
}

/// 0 and the bytes written; or the number, and the bytes needed or 0.
pub fn write(table: &[u32], rows: usize, text: &[u8], out: &mut [u8]) -> (u32, usize) {
    let mut count = 0;
    let room = out.len();
    // SAFETY: each pointer and length is that of a live slice, the output is borrowed by this call alone, and the answer
    // is apart from all of them.
    let number = unsafe {
        linked::yay_write(
            table.as_ptr(),
            table.len(),
            rows,
            text.as_ptr(),
            text.len(),
            out.as_mut_ptr(),
            room,
            &mut count,
        )
    };
    (number, count)
}

/// A table, its row count and its text room.
pub type Lent<'a> = (&'a [u32], usize, &'a [u8]);

/// 0 and the decision, 1 to 3; or the number and 0.
pub fn decide(sheet: Lent, installed: Lent) -> (u32, u32) {
    let mut decision = 0;
    // SAFETY: each pointer and length is that of a live slice, and the answer is apart from them.
    let number = unsafe {
        linked::yay_decide(
            sheet.0.as_ptr(),
            sheet.0.len(),
            sheet.1,
            sheet.2.as_ptr(),
            sheet.2.len(),
            installed.0.as_ptr(),
            installed.0.len(),
            installed.1,
            installed.2.as_ptr(),
            installed.2.len(),
            &mut decision,
        )
    };
    (number, decision)
}

/// 0, rows and text bytes; or the number, the rows or bytes needed or 0, and 0.
pub fn overlay(lower: Lent, upper: Lent, table: &mut [u32], text: &mut [u8]) -> (u32, usize, usize) {
    let (mut first, mut second) = (0, 0);
    let (words, bytes) = (table.len(), text.len());
    // SAFETY: each pointer and length is that of a live slice, the two lent for writing are borrowed by this call alone,
    // and the two answers are apart from each other and from all of them.
    let number = unsafe {
        linked::yay_overlay(
            lower.0.as_ptr(),
            lower.0.len(),
            lower.1,
            lower.2.as_ptr(),
            lower.2.len(),
            upper.0.as_ptr(),
            upper.0.len(),
            upper.1,
            upper.2.as_ptr(),
            upper.2.len(),
            table.as_mut_ptr(),
            words,
            text.as_mut_ptr(),
            bytes,
            &mut first,
            &mut second,
        )
    };
    (number, first, second)
}

/// 0 and the bytes stored; or the number, and the bytes needed or 0.
pub fn store((table, rows, text): Lent, out: &mut [u8]) -> (u32, usize) {
    let mut count = 0;
    let room = out.len();
    // SAFETY: each pointer and length is that of a live slice, the output is borrowed by this call alone, and the answer
    // is apart from all of them.
    let number = unsafe {
        linked::yay_store(
            table.as_ptr(),
            table.len(),
            rows,
            text.as_ptr(),
            text.len(),
            out.as_mut_ptr(),
            room,
            &mut count,
        )
    };
    (number, count)
}

/// 0, rows and text bytes; or the number, the rows or bytes needed or 0, and 0.
pub fn load(stored: &[u8], table: &mut [u32], text: &mut [u8]) -> (u32, usize, usize) {
    let (mut first, mut second) = (0, 0);
    let (words, bytes) = (table.len(), text.len());
    // SAFETY: each pointer and length is that of a live slice, the two lent for writing are borrowed by this call alone,
    // and the two answers are apart from each other and from all of them.
    let number = unsafe {
        linked::yay_load(
            stored.as_ptr(),
            stored.len(),
            table.as_mut_ptr(),
            words,
            text.as_mut_ptr(),
            bytes,
            &mut first,
            &mut second,
        )
    };
    (number, first, second)
}

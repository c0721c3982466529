//! Results that are put into rooms otherwise, or told otherwise.

use super::Fill;
use crate::second::overlay::{fill, told, Laid, CLASH};
use crate::second::questions::BADROW;
use crate::second::{ROWS, TEXT, WORDS};

fn needs(laid: &Result<Laid, u32>) -> Option<(usize, usize)> {
    laid.as_ref().ok().map(|laid| (laid.words.len() / WORDS, laid.text.len()))
}

/// Other ways to put a result into rooms, and to tell it.
pub const FILLINGS: [(&str, Fill); 13] = [
    ("ROWS comes after TEXT", |laid, table, text| match needs(laid) {
        Some((_, bytes)) if bytes > text.len() => (TEXT, bytes, 0),
        _ => fill(laid, table, text),
    }),
    ("the rows needed are one too few", |laid, table, text| match fill(laid, table, text) {
        (ROWS, rows, _) => (ROWS, rows - 1, 0),
        said => said,
    }),
    ("the rows needed are told as words", |laid, table, text| match fill(laid, table, text) {
        (ROWS, rows, _) => (ROWS, rows * WORDS, 0),
        said => said,
    }),
    ("the bytes needed are one too many", |laid, table, text| match fill(laid, table, text) {
        (TEXT, bytes, _) => (TEXT, bytes + 1, 0),
        said => said,
    }),
    ("the bytes needed are those still missing", |laid, table, text| match fill(laid, table, text) {
        (TEXT, bytes, _) => (TEXT, bytes - text.len(), 0),
        said => said,
    }),
    ("ROWS tells the bytes too", |laid, table, text| match (fill(laid, table, text), needs(laid)) {
        ((ROWS, rows, _), Some((_, bytes))) => (ROWS, rows, bytes),
        (said, _) => said,
    }),
    ("a table one word short is enough", |laid, table, text| {
        let mut longer = [&*table, &[0]].concat();
        let said = fill(laid, &mut longer, text);
        table.copy_from_slice(&longer[..table.len()]);
        said
    }),
    ("a table of just the words is too short", |laid, table, text| match needs(laid) {
        Some((rows, _)) if rows * WORDS == table.len() => (ROWS, rows, 0),
        _ => fill(laid, table, text),
    }),
    ("a room of just the bytes is too short", |laid, table, text| match (fill(laid, table, text), needs(laid)) {
        ((0, ..), Some((_, bytes))) if bytes == text.len() => (TEXT, bytes, 0),
        (said, _) => said,
    }),
    ("rows are written though the text doesn't fit", |laid, table, text| {
        let said = fill(laid, table, text);
        if let (TEXT, Ok(laid)) = (said.0, laid) {
            table[..laid.words.len()].copy_from_slice(&laid.words);
        }
        said
    }),
    ("what fits is written though not all does", |laid, table, text| {
        let said = fill(laid, table, text);
        if let (ROWS, Ok(laid)) = (said.0, laid) {
            let words = table.len().min(laid.words.len()) / WORDS * WORDS;
            table[..words].copy_from_slice(&laid.words[..words]);
        }
        said
    }),
    ("a word behind the rows is written", |laid, table, text| {
        let said = fill(laid, table, text);
        if let (0, Some(word)) = (said.0, table.get_mut(said.1 * WORDS)) {
            *word = 0;
        }
        said
    }),
    ("a byte behind the text is written", |laid, table, text| {
        let said = fill(laid, table, text);
        if let (0, Some(byte)) = (said.0, text.get_mut(said.2)) {
            *byte = 0;
        }
        said
    }),
];

/// Refusals that touch a target, or are told too late.
pub const REFUSALS: [(&str, Fill); 3] = [
    ("ROWS comes before CLASH", |laid, table, text| match laid {
        Err(CLASH) if table.is_empty() => (ROWS, 1, 0),
        _ => fill(laid, table, text),
    }),
    ("a target is touched before a clash is met", |laid, table, text| {
        if let (Err(CLASH), Some(byte)) = (laid, text.first_mut()) {
            *byte = 0;
        }
        fill(laid, table, text)
    }),
    ("a target is touched before a table is tested", |laid, table, text| {
        if let (Err(BADROW), Some(word)) = (laid, table.first_mut()) {
            *word = 9;
        }
        fill(laid, table, text)
    }),
];

/// Other tellings.
pub const TELLINGS: [(&str, Fill); 3] = [
    ("a clash has a place", |laid, table, text| match fill(laid, table, text) {
        (CLASH, ..) => (CLASH, 1, 0),
        said => said,
    }),
    ("a root that is no object clashes", |laid, table, text| match fill(laid, table, text) {
        (BADROW, ..) if table.is_empty() => (CLASH, 0, 0),
        said => said,
    }),
    ("rows and bytes are exchanged", |laid, table, text| match (fill(laid, table, text), laid) {
        ((0, ..), Ok(laid)) => {
            let (number, rows, bytes) = told(laid, table.len(), text.len());
            (number, bytes, rows)
        }
        (said, _) => said,
    }),
];

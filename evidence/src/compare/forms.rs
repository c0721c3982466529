//! The backslashes of an accepted document by form, found again in the spans of its rows: to see that each form is met
//! often, and for readers that count some of them wrong.

use crate::second::WORDS;

/// What a backslash in a quoted string is, with what stands behind it.
#[derive(Clone, Copy, PartialEq, Eq)]
pub enum Form {
    /// `\n` and the like in double quotes.
    Letter,
    /// `\u{41}` in double quotes.
    Scalar,
    /// `\'` in single quotes.
    SingleQuote,
    /// `\\` in single quotes.
    SingleBackslash,
    /// A backslash that stays as itself, in single quotes: the only one that is no escape.
    Kept,
}

/// The forms of each line of a row.
pub type Lines = Vec<Vec<Form>>;

/// The backslashes of a quoted or joined string, or of a quoted key; nothing of other rows.
pub fn lines(doc: &[u8], row: &[u32]) -> Lines {
    let span = &doc[row[1] as usize..row[2] as usize];
    let quotes = matches!(row[0], 6 | 10) && matches!(span[0], b'"' | b'\'');
    if !quotes || !span.contains(&b'\\') {
        return Lines::new();
    }
    let mut lines = Lines::new();
    let mut at = 0;
    while at < span.len() {
        if matches!(span[at], b'"' | b'\'') {
            lines.push(Vec::new());
            at = quoted(span, at, lines.last_mut().expect("just pushed"));
        }
        // A closing quote, or the LF and the spaces between two lines.
        at += 1;
    }
    lines
}

/// The forms between two quotes; gives the place of the closing one.
fn quoted(span: &[u8], open: usize, forms: &mut Vec<Form>) -> usize {
    let mut at = open + 1;
    while span[at] != span[open] {
        if span[at] == b'\\' {
            at += 1;
            forms.push(form(span[open], span[at]));
        }
        at += 1;
    }
    at
}

fn form(quote: u8, behind: u8) -> Form {
    match (quote, behind) {
        (b'"', b'u') => Form::Scalar,
        (b'"', _) => Form::Letter,
        (_, b'\'') => Form::SingleQuote,
        (_, b'\\') => Form::SingleBackslash,
        _ => Form::Kept,
    }
}

/// How many of them are escapes.
pub fn escapes<'f>(forms: impl IntoIterator<Item = &'f Form>) -> usize {
    forms.into_iter().filter(|form| **form != Form::Kept).count()
}

/// The escapes of a document with these rows.
pub fn total(doc: &[u8], words: &[u32]) -> usize {
    words.chunks_exact(WORDS).map(|row| escapes(lines(doc, row).iter().flatten())).sum()
}

/// What is counted, in this order.
pub const NAMES: [&str; 7] = [
    "lettered escapes",
    "\\u{..}",
    "\\' in single quotes",
    "\\\\ there",
    "backslashes that stay",
    "keys with escapes",
    "joined strings with escapes in several lines",
];

/// Counts a row's forms.
pub fn count(doc: &[u8], row: &[u32], counts: &mut [usize; NAMES.len()]) {
    let lines = lines(doc, row);
    for form in lines.iter().flatten() {
        counts[*form as usize] += 1;
    }
    let escaped = lines.iter().filter(|forms| escapes(*forms) > 0).count();
    counts[5] += usize::from(row[0] == 10 && escaped > 0);
    counts[6] += usize::from(escaped > 1);
}

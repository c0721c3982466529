//! Keys, keywords, unquoted texts, and what begins a block.

use super::at::{trim_spaces, At};
use super::lines::is_item;
use super::scan::scan;
use std::ops::Range;

pub const KEYWORDS: [&str; 6] = ["null", "true", "false", "nan", "infinity", "-infinity"];

/// The run of letters, digits and other marks around the place.
fn word(at: &At) -> Range<usize> {
    let parts = |byte: &&u8| !b" ,[]{}<>\"':#\n".contains(byte);
    let before = at.before().iter().rev().take_while(parts).count();
    let behind = at.rest().iter().take_while(parts).count();
    at.place - before..at.place + behind
}

/// The keyword that stands here in other cases of letters.
pub fn keyword(at: &At) -> Option<&'static str> {
    let range = word(at);
    let word = std::str::from_utf8(&at.doc[range.clone()]).ok()?;
    let keyword = KEYWORDS.into_iter().find(|keyword| word != *keyword && word.eq_ignore_ascii_case(keyword))?;
    at.helps(range, keyword.as_bytes()).then_some(keyword)
}

pub fn is_keyword(at: &At) -> bool {
    keyword(at).is_some()
}

pub fn is_marker_line(at: &At) -> bool {
    at.line().starts_with(b"---") && at.place == at.start + 3
}

/// The key that the place stands in would be one in quotes.
pub fn is_key_to_quote(at: &At) -> bool {
    let from = at.start + scan(at.before()).value;
    let bytes = &at.doc[from..at.end];
    let Some(length) = bytes.iter().position(|byte| *byte == b':') else { return false };
    let plain = !bytes[..length].iter().any(|byte| b"\"'\\[]{},#".contains(byte));
    from + length >= at.place && plain && length > 0 && at.helps(from..from + length, b"\"\"")
}

/// The unquoted text around the place, where a string could stand.
fn unquoted(at: &At) -> Option<Range<usize>> {
    let scanned = scan(at.before());
    let from = at.start + scanned.value;
    let bytes = &at.doc[from..at.end];
    let inside = !scanned.open.is_empty();
    let ends = |at: usize| bytes[at..].starts_with(b" #") || inside && b",]}".contains(&bytes[at]);
    let length = (0..bytes.len()).find(|at| ends(*at)).unwrap_or(bytes.len());
    let length = trim_spaces(&bytes[..length]).len();
    let begins = |byte: &u8| byte.is_ascii_alphanumeric() || *byte >= 0x80 || b"+-./_~".contains(byte);
    let begins_value = bytes.first().is_some_and(begins) && !is_item(bytes);
    let range = from..from + length;
    (begins_value && length > 0 && range.end >= at.place && at.helps(range.clone(), b"\"\"")).then_some(range)
}

pub fn is_no_number(at: &At) -> bool {
    unquoted(at).is_some_and(|range| match &at.doc[range] {
        [b'-' | b'+' | b'.', rest @ ..] => is_digits(rest),
        bytes => is_digits(bytes),
    })
}

pub fn is_unquoted(at: &At) -> bool {
    unquoted(at).is_some()
}

/// Whether a key may end here, and nothing else goes on.
pub fn lacks_colon(at: &At) -> bool {
    at.goes_on(b":") && !at.goes_on(b")")
}

pub fn is_text_bar(at: &At) -> bool {
    at.is_byte(b'|') && at.goes_on(b"`")
}

/// Something behind the grave or the `>` of a property, which begins on the next line.
pub fn is_behind_mark(at: &At, mark: &[u8]) -> bool {
    let before = trim_spaces(at.before());
    before.ends_with(mark) && at.place <= at.start + before.len() + 1 && !at.goes_on(b")") && !at.is_byte(b'\n')
}

pub fn is_item_among_keys(at: &At) -> bool {
    is_item(at.content()) && at.before().trim_ascii_start() == b"-"
}

pub fn is_item_behind_key(at: &At) -> bool {
    at.before().ends_with(b": -") && at.is_byte(b' ')
}

pub fn is_pair_in_array(at: &At) -> bool {
    matches!(scan(at.before()).open.last(), Some((_, b'['))) && is_pair(at.rest()) && at.goes_on(b"{")
}

pub fn is_pair_without_value(at: &At) -> bool {
    let inside = matches!(scan(at.before()).open.last(), Some((_, b'{')));
    inside && at.before().ends_with(b": ") && matches!(at.byte(), Some(b'}' | b','))
}

/// Whether the bytes begin with a digit.
pub fn is_digits(bytes: &[u8]) -> bool {
    bytes.first().is_some_and(u8::is_ascii_digit)
}

/// Whether the bytes begin with a bare key and its colon.
pub fn is_pair(bytes: &[u8]) -> bool {
    let key = bytes.iter().take_while(|byte| byte.is_ascii_alphanumeric() || b"_-".contains(byte)).count();
    key > 0 && bytes[key..].starts_with(b": ")
}

//! Spaces, commas and comments that stand wrong, or are missing.

use super::at::{is_whole, trim_spaces, At};
use super::lines::{is_above_root, is_comment_line};
use super::plain::{is_digits, is_pair};
use super::scan::scan;

pub fn has_trailing_space(at: &At) -> bool {
    at.is_byte(b'\n') && at.before().ends_with(b" ") && at.helps(at.spaces(), b"")
}

pub fn is_empty_item(at: &At) -> bool {
    at.is_byte(b'\n') && at.before().ends_with(b"- ") && at.goes_on(b"1")
}

/// Spaces behind an opening bracket.
pub fn is_spaced_inside(at: &At) -> bool {
    let opens = at.spaces().start.checked_sub(1).is_some_and(|last| matches!(at.doc[last], b'[' | b'{' | b'<'));
    opens && is_without_spaces(at)
}

/// Spaces that would have to go.
pub fn is_without_spaces(at: &At) -> bool {
    !at.spaces().is_empty() && at.helps(at.spaces(), b"")
}

/// Spaces before one of these, that would have to go.
pub fn is_spaced_before(at: &At, marks: &[u8]) -> bool {
    let next = at.doc.get(at.spaces().end);
    next.is_some_and(|next| marks.contains(next)) && !at.is_first() && is_without_spaces(at)
}

/// More than one space behind a mark.
pub fn is_spaced_twice(at: &At, mark: u8) -> bool {
    let spaces = at.spaces();
    let behind = spaces.start.checked_sub(1).is_some_and(|last| at.doc[last] == mark);
    behind && spaces.len() > 1 && at.helps(spaces, b" ")
}

/// A mark without the space behind it.
pub fn lacks_space(at: &At, mark: u8) -> bool {
    at.before().last() == Some(&mark) && at.goes_on(b" ") && !at.is_byte(b'\n')
}

/// Two digits with spaces between them inside brackets: one number, or two.
pub fn is_spaced_number(at: &At) -> bool {
    let spaces = at.spaces();
    let is_digit = |place: Option<usize>| place.and_then(|place| at.doc.get(place)).is_some_and(u8::is_ascii_digit);
    !spaces.is_empty() && is_digit(spaces.start.checked_sub(1)) && is_digit(Some(spaces.end)) && lacks_comma(at)
}

pub fn lacks_comma(at: &At) -> bool {
    let behind = &at.doc[at.spaces().end..at.end];
    let inside = match scan(at.before()).open.last() {
        Some((_, b'[')) => true,
        Some((_, b'{')) => is_pair(behind) || is_digits(behind),
        _ => false,
    };
    inside && !at.spaces().is_empty() && at.helps(at.spaces(), b", ")
}

pub fn has_comma_at_end(at: &At) -> bool {
    at.rest() == b"," && at.helps(at.place..at.end, b"")
}

pub fn has_comma_last(at: &At) -> bool {
    trim_spaces(at.before()).ends_with(b",") && matches!(at.byte(), Some(b']' | b'}'))
}

pub fn is_indented_comment(at: &At) -> bool {
    is_comment_line(at) && is_above_root(at)
}

pub fn is_near_comment(at: &At) -> bool {
    begins_comment(at) && at.helps(at.spaces(), b"  ")
}

pub fn is_far_comment(at: &At) -> bool {
    begins_comment(at) && at.helps(at.spaces(), b" ")
}

pub fn is_root_comment(at: &At) -> bool {
    begins_comment(at) && is_whole(&at.doc[..at.spaces().start])
}

fn begins_comment(at: &At) -> bool {
    at.doc.get(at.spaces().end) == Some(&b'#') && !at.is_first()
}

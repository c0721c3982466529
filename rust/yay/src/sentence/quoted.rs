//! Quotes, brackets, escapes and bytes.

use super::at::At;
use super::characters::character;
use super::scan::scan;

/// The quote or bracket that the line leaves open, where a line end is refused for it.
pub fn opened(at: &At) -> Option<(usize, u8)> {
    let is_end = matches!(at.byte(), None | Some(b'\n')) && !at.goes_on(b"\n");
    is_end.then(|| scan(at.before()).open.last().copied()).flatten()
}

pub fn leaves_quote_open(at: &At) -> bool {
    opened(at).is_some_and(|(_, byte)| matches!(byte, b'"' | b'\''))
}

/// Whether a path's last backslash escapes the quote that was to close it, as in `'C:\'`.
pub fn ends_in_escaped_quote(at: &At) -> bool {
    leaves_quote_open(at) && at.before().ends_with(b"\\'") && at.helps(at.place - 1..at.place, b"\\'")
}

pub fn leaves_bracket_open(at: &At) -> bool {
    opened(at).is_some()
}

pub fn is_wrong_closer(at: &At) -> bool {
    let open = scan(at.before()).open.last().map(|(_, byte)| closer(*byte));
    matches!(at.byte(), Some(b']' | b'}')) && open.is_some_and(|closer| at.goes_on(&[closer]))
}

pub fn closer(open: u8) -> u8 {
    match open {
        b'[' => b']',
        b'{' => b'}',
        b'<' => b'>',
        quote => quote,
    }
}

pub fn is_behind_quote(at: &At) -> bool {
    scan(at.before()).ended.is_some() && at.byte().is_some_and(|byte| byte.is_ascii_alphanumeric() || byte >= 0x80)
}

/// What stands behind the backslash of an escape in double quotes up to the place. In single quotes no backslash is
/// refused for what stands behind it, but for a line's end, which leaves the quote open.
fn escape<'d>(at: &At<'d>) -> Option<&'d [u8]> {
    let before = at.before();
    scan(before).quote().filter(|quote| *quote == b'"')?;
    let slash = before.iter().rposition(|byte| *byte == b'\\')?;
    // A backslash that is itself escaped begins nothing.
    let slashes = before[..=slash].iter().rev().take_while(|byte| **byte == b'\\').count();
    (slashes % 2 == 1).then_some(&before[slash + 1..])
}

pub fn is_escape(at: &At) -> bool {
    escape(at).is_some_and(<[u8]>::is_empty)
}

/// The digits of `\x41` or `\u0041`, which would stand in braces.
pub fn unbraced<'d>(at: &At<'d>) -> Option<&'d [u8]> {
    let (digits, count) = match (escape(at)?, at.rest()) {
        (b"", [b'x', digits @ ..]) => (digits, 2),
        (b"u", digits) => (digits, 4),
        _ => return None,
    };
    digits.get(..count).filter(|digits| digits.iter().all(u8::is_ascii_hexdigit))
}

pub fn is_unbraced(at: &At) -> bool {
    unbraced(at).is_some()
}

pub fn is_number_escape(at: &At) -> bool {
    escape(at).is_some_and(|begun| begun.starts_with(b"u"))
}

/// Whether a hex digit may stand here, and no other letter.
pub fn is_hex(at: &At) -> bool {
    scan(at.before()).quote().is_none() && at.goes_on(b"a") && !at.goes_on(b"g")
}

pub fn is_capital_hex(at: &At) -> bool {
    matches!(at.byte(), Some(b'A'..=b'F')) && is_hex(at)
}

pub fn is_half_pair(at: &At) -> bool {
    is_hex(at) && at.before().last().is_some_and(u8::is_ascii_hexdigit) && !at.goes_on(b" ") && !at.goes_on(b">")
}

pub fn is_hex_below(at: &At) -> bool {
    is_hex(at) && at.above().next().is_some_and(|line| line.ends_with(b": >"))
}

pub fn is_curly_quote(at: &At) -> bool {
    matches!(character(at.rest()), Some('\u{2018}'..='\u{201f}' | '«' | '»')) && at.goes_on(b"\"")
}

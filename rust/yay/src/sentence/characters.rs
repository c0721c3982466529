//! What the bytes at a place are as characters of UTF-8.

use super::at::At;

/// The character that the bytes begin with, if they are UTF-8 there.
pub fn character(bytes: &[u8]) -> Option<char> {
    bytes.utf8_chunks().next().and_then(|chunk| chunk.valid().chars().next())
}

/// The place where the character begins that the byte at the place does not go on: at most three bytes before.
pub fn begun(at: &At) -> Option<usize> {
    let continues = |byte: u8| (0x80..0xc0).contains(&byte);
    let mut from = at.place.checked_sub(1)?;
    while continues(at.doc[from]) && at.place - from < 3 {
        from = from.checked_sub(1)?;
    }
    let length = match at.doc[from] {
        0xc2..=0xdf => 2,
        0xe0..=0xef => 3,
        0xf0..=0xf4 => 4,
        _ => 1,
    };
    (at.place < from + length).then_some(from)
}

/// A character of UTF-8 that a document may not have, around the place.
pub fn forbidden(at: &At) -> Option<char> {
    let from = begun(at).unwrap_or(at.place);
    character(&at.doc[from..]).filter(|found| !found.is_ascii() && !is_allowed(*found))
}

fn is_allowed(character: char) -> bool {
    let code = character as u32;
    code >= 0xa0 && !(0xfdd0..=0xfdef).contains(&code) && code & 0xfffe != 0xfffe
}

/// A character that looks like a space and is none.
pub fn is_odd_space(character: char) -> bool {
    character.is_whitespace() && !character.is_ascii() || matches!(character as u32, 0x200b | 0x2060 | 0xfeff)
}

/// A control byte where no character has begun.
pub fn is_control(at: &At) -> bool {
    begun(at).is_none() && at.byte().is_some_and(|byte| byte < 32 || byte == 127)
}

pub fn is_space_like(at: &At) -> bool {
    character(at.rest()).is_some_and(is_odd_space)
}

pub fn is_no_character(at: &At) -> bool {
    at.byte().is_some_and(|byte| byte >= 0x80) && character(at.rest()).is_none()
}

pub fn begins_with_mark(at: &At) -> bool {
    at.place == 0 && at.doc.starts_with(b"\xef\xbb\xbf")
}

//! The allowed characters, by the list in document 01 and the encoder of the standard library.

use std::collections::HashSet;
use std::sync::OnceLock;

/// "LF, U+0020..U+007E, U+00A0..U+D7FF, U+E000..U+FFFD less U+FDD0..U+FDEF,
/// and U+10000..U+10FFFF less each plane's last two".
pub fn allowed(scalar: char) -> bool {
    match scalar as u32 {
        0x0A | 0x20..=0x7E | 0xA0..=0xD7FF => true,
        0xFDD0..=0xFDEF => false,
        0xE000..=0xFFFD => true,
        point @ 0x10000..=0x10FFFF => point & 0xFFFF < 0xFFFE,
        _ => false,
    }
}

/// Every beginning of every allowed character, its whole included, filled up with zeros.
fn beginnings() -> &'static HashSet<[u8; 4]> {
    static SET: OnceLock<HashSet<[u8; 4]>> = OnceLock::new();
    SET.get_or_init(|| {
        let mut set = HashSet::new();
        for scalar in ('\0'..=char::MAX).filter(|&scalar| allowed(scalar)) {
            let mut utf8 = [0; 4];
            let size = scalar.encode_utf8(&mut utf8).len();
            for count in 1..=size {
                let mut beginning = [0; 4];
                beginning[..count].copy_from_slice(&utf8[..count]);
                set.insert(beginning);
            }
        }
        set
    })
}

/// The bytes of a character so far.
#[derive(Clone, Copy, PartialEq, Eq, Hash)]
pub struct Part {
    bytes: [u8; 4],
    count: u8,
}

impl Part {
    pub const NOTHING: Part = Part { bytes: [0; 4], count: 0 };

    /// The part with one more byte, if an allowed character begins so.
    pub fn and(mut self, byte: u8) -> Option<Part> {
        if self.count == 4 || byte == 0 {
            return None;
        }
        self.bytes[self.count as usize] = byte;
        self.count += 1;
        beginnings().contains(&self.bytes).then_some(self)
    }

    pub fn whole(self) -> bool {
        std::str::from_utf8(&self.bytes[..self.count as usize]).is_ok()
    }
}

/// Whether the bytes begin a sequence of allowed characters.
pub fn begin_characters(bytes: &[u8]) -> bool {
    let mut part = Part::NOTHING;
    for &byte in bytes {
        match part.and(byte) {
            None => return false,
            Some(more) => part = if more.whole() { Part::NOTHING } else { more },
        }
    }
    true
}

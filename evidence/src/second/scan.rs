//! Byte classes, and runs of characters looked through eight bytes at a time.

use super::{Step, Stop};

/// Zero bytes behind the document, so that looking ahead never leaves the buffer.
pub const PAD: usize = 32;
pub const LF: u8 = b'\n';
pub const GRAVE: u8 = b'`';
pub const NOT_HEX: u8 = 255;

/// Letters, digits, `_` and `-`.
static KEY: [bool; 256] = key_bytes();
/// Values of the lowercase hex digits.
static HEX: [u8; 256] = hex_values();

const fn key_bytes() -> [bool; 256] {
    let mut class = [false; 256];
    let mut i = 0;
    while i < 256 {
        let byte = i as u8;
        class[i] = byte.is_ascii_alphanumeric() || byte == b'_' || byte == b'-';
        i += 1;
    }
    class
}

const fn hex_values() -> [u8; 256] {
    let mut value = [NOT_HEX; 256];
    let mut i = 0;
    while i < 16 {
        value[b"0123456789abcdef"[i] as usize] = i as u8;
        i += 1;
    }
    value
}

#[inline]
pub fn hex(byte: u8) -> u8 {
    HEX[byte as usize]
}

#[inline]
pub fn is_key(byte: u8) -> bool {
    KEY[byte as usize]
}

/// The high bit of each byte that is `low` or more; the bytes of `word` are below 128.
#[inline]
fn from(word: u64, low: u8) -> u64 {
    word + ONES * u64::from(128 - low)
}

/// The byte after the bare key's bytes from `at` on.
#[inline]
pub fn key_end(doc: &[u8], mut at: usize) -> usize {
    while let Some(chunk) = doc[at..].first_chunk::<8>() {
        let word = u64::from_le_bytes(*chunk);
        let low = word & !HIGH;
        let folded = low | (ONES * 0x20);
        let letters = from(folded, b'a') & !from(folded, b'z' + 1);
        let digits = from(low, b'0') & !from(low, b'9' + 1);
        let dash = from(low, b'-') & !from(low, b'-' + 1);
        let line = from(low, b'_') & !from(low, b'_' + 1);
        let others = (!(letters | digits | dash | line) | word) & HIGH;
        if others != 0 {
            return at + (others.trailing_zeros() / 8) as usize;
        }
        at += 8;
    }
    at
}

/// The byte after the digits from `at` on.
#[inline]
pub fn digits_end(doc: &[u8], mut at: usize) -> usize {
    while let Some(chunk) = doc[at..].first_chunk::<8>() {
        let less = u64::from_le_bytes(*chunk) ^ (ONES * u64::from(b'0'));
        let others = (((less & !HIGH) + ONES * 0x76) | less) & HIGH;
        if others != 0 {
            return at + (others.trailing_zeros() / 8) as usize;
        }
        at += 8;
    }
    at
}

/// How many spaces stand at `at`, counted up to `most`.
#[inline]
pub fn spaces(doc: &[u8], at: usize, most: usize) -> usize {
    let mut count = 0;
    while count < most && doc[at + count] == b' ' {
        count += 1;
    }
    count
}

pub fn begins_character(byte: u8) -> bool {
    matches!(byte, LF | 0x20..=0x7E | 0xC2..=0xF4)
}

const ONES: u64 = 0x0101_0101_0101_0101;
const HIGH: u64 = 0x8080_8080_8080_8080;

/// The high bit of each zero byte; bits above the lowest one may be set too.
#[inline]
fn zeros(word: u64) -> u64 {
    word.wrapping_sub(ONES) & !word & HIGH
}

/// The first byte from `at` on that is no printable ASCII, or is `a` or `b`.
#[inline]
fn plain_end(doc: &[u8], mut at: usize, a: u8, b: u8) -> usize {
    let (a, b) = (ONES * u64::from(a), ONES * u64::from(b));
    while let Some(chunk) = doc[at..].first_chunk::<8>() {
        let word = u64::from_le_bytes(*chunk);
        let control = word.wrapping_sub(ONES * 0x20) & !word;
        let stops = zeros(word ^ a) | zeros(word ^ b) | zeros(word ^ (ONES * 0x7F));
        let found = (stops | control | word) & HIGH;
        if found != 0 {
            return at + (found.trailing_zeros() / 8) as usize;
        }
        at += 8;
    }
    at
}

/// The first byte from `at` on that is a control, DEL, `a` or `b`; what stands before it are characters.
#[inline]
pub fn run_end(doc: &[u8], mut at: usize, a: u8, b: u8) -> Step<usize> {
    loop {
        at = plain_end(doc, at, a, b);
        if doc[at] < 0x80 {
            return Ok(at);
        }
        while doc[at] >= 0x80 {
            at = character_end(doc, at)?;
        }
    }
}

/// The byte after the character of two bytes or more at `at`.
#[inline]
fn character_end(doc: &[u8], at: usize) -> Step<usize> {
    let second = doc[at + 1];
    let (low, high) = match doc[at] {
        0xC2 | 0xE0 => (0xA0, 0xBF),
        0xED => (0x80, 0x9F),
        0xF0 => (0x90, 0xBF),
        0xF4 => (0x80, 0x8F),
        0xC3..=0xF3 => (0x80, 0xBF),
        _ => return Err(Stop::At(at)),
    };
    if second < low || second > high {
        return Err(Stop::Char(at + 1));
    }
    match doc[at] {
        0xC2..=0xDF => Ok(at + 2),
        0xE0..=0xEF => third_end(doc, at),
        _ => fourth_end(doc, at),
    }
}

#[inline]
fn continues(byte: u8) -> bool {
    byte & 0xC0 == 0x80
}

/// U+FDD0..U+FDEF, U+FFFE and U+FFFF are left out.
#[inline]
fn third_end(doc: &[u8], at: usize) -> Step<usize> {
    let third = doc[at + 2];
    let left_out = doc[at] == 0xEF
        && match doc[at + 1] {
            0xB7 => matches!(third, 0x90..=0xAF),
            0xBF => third >= 0xBE,
            _ => false,
        };
    if !continues(third) || left_out {
        return Err(Stop::Char(at + 2));
    }
    Ok(at + 3)
}

/// Each plane's last two are left out.
#[inline]
fn fourth_end(doc: &[u8], at: usize) -> Step<usize> {
    let (second, third, fourth) = (doc[at + 1], doc[at + 2], doc[at + 3]);
    if !continues(third) {
        return Err(Stop::Char(at + 2));
    }
    let left_out = second & 0x0F == 0x0F && third == 0xBF && fourth >= 0xBE;
    if !continues(fourth) || left_out {
        return Err(Stop::Char(at + 3));
    }
    Ok(at + 4)
}

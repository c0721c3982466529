//! Texts of leaves and keys: those that a document gives, and near misses.

use crate::documents::{pieces, Rng};

const INTEGERS: [&str; 8] = ["0", "1", "-1", "9", "10", "-10", "18446744073709551616", "-340282366920938463463"];
const NO_INTEGERS: [&str; 14] = ["", "-", "-0", "00", "+1", "01", "-01", "--1", "1-", "1 0", "1.", "1e1", " 1", "-00"];

const FLOATS: [&str; 18] = [
    "nan",
    "infinity",
    "-infinity",
    "1.",
    "-1.",
    ".5",
    "-.5",
    "1.5",
    "-0.",
    "00.50",
    "0e0",
    "1e5",
    "1e+05",
    "1.e-5",
    ".5e+3",
    "-.0e0",
    "1.25e10",
    "-00e00",
];
const NO_FLOATS: [&str; 25] = [
    "",
    "1",
    "-0",
    ".",
    "-.",
    "1e",
    "1E5",
    "-nan",
    "+1.0",
    "e5",
    ".e5",
    "1e+",
    "1e-",
    "1e5.",
    "1.5.5",
    "1e5e5",
    "--1.0",
    "inf",
    "Infinity",
    "-infinit",
    "infinity1",
    "nan ",
    "1 .5",
    "1.5e 5",
    "1e+-5",
];

/// What stands at the borders of what a document may have, and of UTF-8.
const CHARACTERS: [char; 28] = [
    '\0',
    '\u{1}',
    '\u{7}',
    '\u{8}',
    '\t',
    '\n',
    '\u{b}',
    '\u{c}',
    '\r',
    '\u{e}',
    '\u{1f}',
    ' ',
    '~',
    '\u{7f}',
    '\u{80}',
    '\u{9f}',
    '\u{a0}',
    '\u{d7ff}',
    '\u{e000}',
    '\u{fdcf}',
    '\u{fdd0}',
    '\u{fdef}',
    '\u{fdf0}',
    '\u{feff}',
    '\u{fffe}',
    '\u{ffff}',
    '\u{10ffff}',
    '/',
];

/// Bytes that are no UTF-8 of scalar values: a byte alone, overlong forms, surrogates, too large, cut short.
const BROKEN: [&[u8]; 12] = [
    b"\x80",
    b"\xff",
    b"\xc0\x80",
    b"\xc1\xbf",
    b"\xe0\x80\x80",
    b"\xe0\x9f\xbf",
    b"\xed\xa0\x80",
    b"\xed\xbf\xbf",
    b"\xf0\x8f\xbf\xbf",
    b"\xf4\x90\x80\x80",
    b"\xe6\x97",
    b"\xf0\x9f\x98",
];

fn pick(rng: &mut Rng, list: &[&str]) -> Vec<u8> {
    rng.pick(list).as_bytes().to_vec()
}

/// An integer's text, or one that is none.
pub fn integer(rng: &mut Rng, good: bool) -> Vec<u8> {
    match good {
        false => pick(rng, &NO_INTEGERS),
        true if rng.once_in(2) => pick(rng, &INTEGERS),
        true => format!("{}{}", rng.pick(&["", "-"]), 1 + rng.below(1 << 40)).into_bytes(),
    }
}

/// A float's text, or one that is none.
pub fn float(rng: &mut Rng, good: bool) -> Vec<u8> {
    match good {
        false => pick(rng, &NO_FLOATS),
        true if rng.once_in(2) => pick(rng, &FLOATS),
        true => pieces::float(rng, false).into_bytes(),
    }
}

/// A string's or a key's text, or one that is none.
pub fn string(rng: &mut Rng, good: bool) -> Vec<u8> {
    let mut text = String::new();
    for _ in 0..rng.below(6) {
        text.push(match rng.below(4) {
            0 => CHARACTERS[rng.below(CHARACTERS.len())],
            1 => char::from_u32(rng.below(0x11_0000) as u32).unwrap_or('\u{fffff}'),
            _ => pieces::character(rng),
        });
    }
    let mut text = text.into_bytes();
    if !good {
        let broken = BROKEN[rng.below(BROKEN.len())];
        // Behind characters or before them, so that no byte before or behind mends it.
        let at = if rng.once_in(2) { 0 } else { text.len() };
        text.splice(at..at, broken.iter().copied());
        if std::str::from_utf8(&text).is_ok() {
            text.push(0xff);
        }
    }
    text
}

/// A key: bare, nearly bare, empty, or any string.
pub fn key(rng: &mut Rng, good: bool) -> Vec<u8> {
    match rng.below(8) {
        _ if !good => string(rng, false),
        0 => string(rng, true),
        1 => pick(rng, &["", " ", "a b", "a.b", "é", "a:", "#", "\"", "'", "a\n", "+1", "-", "_", "-1", "null", "[]"]),
        _ => pieces::bare_key(rng).into_bytes(),
    }
}

pub fn bytes(rng: &mut Rng) -> Vec<u8> {
    (0..rng.below(5)).map(|_| rng.below(256) as u8).collect()
}

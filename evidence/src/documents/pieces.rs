//! Characters, texts, keys and numbers at random.

use super::Rng;

/// Characters at the borders of what is allowed, and some that the grammar uses.
const BORDERS: [char; 25] = [
    '\u{A0}',
    '\u{301}',
    '\u{7FF}',
    '\u{800}',
    '\u{FFF}',
    '\u{1000}',
    '\u{D7FF}',
    '\u{E000}',
    '\u{FDCF}',
    '\u{FDF0}',
    '\u{FEFF}',
    '\u{FFFD}',
    '\u{10000}',
    '\u{1FFFD}',
    '\u{20000}',
    '\u{EFFFD}',
    '\u{10FFFD}',
    'é',
    'ß',
    '€',
    '漢',
    '😀',
    '~',
    '`',
    ':',
];

const MARKS: &[u8] = b" #:-,[]{}<>`'\"\\/.e0";

/// A character that may stand in a document's line.
pub fn character(rng: &mut Rng) -> char {
    match rng.below(8) {
        0 => BORDERS[rng.below(BORDERS.len())],
        1 | 2 => char::from(MARKS[rng.below(MARKS.len())]),
        3 => char::from(0x20 + rng.below(0x5F) as u8),
        _ => char::from(b'a' + rng.below(26) as u8),
    }
}

/// Mostly short, now and then long.
pub fn length(rng: &mut Rng) -> usize {
    match rng.below(16) {
        0 => rng.below(70),
        1..=3 => rng.below(20),
        _ => rng.below(5),
    }
}

/// Characters of a line that don't end in a space.
pub fn text(rng: &mut Rng, least: usize) -> String {
    let size = least.max(length(rng));
    let mut text: String = (0..size).map(|_| character(rng)).collect();
    if text.ends_with(' ') {
        text.pop();
        text.push('.');
    }
    text
}

const KEYS: [&str; 12] = ["a", "b", "id", "null", "true", "-", "-5", "12", "name", "x_1", "nan", "infinity"];

pub fn bare_key(rng: &mut Rng) -> String {
    const BYTES: &[u8] = b"abcdefghijklmnopqrstuvwxyzABCXYZ0123456789_-";
    if rng.once_in(3) {
        return KEYS[rng.below(KEYS.len())].to_string();
    }
    (0..1 + length(rng)).map(|_| char::from(BYTES[rng.below(BYTES.len())])).collect()
}

/// One or more digits, with single spaces between some if `spaced`.
pub fn digits(rng: &mut Rng, spaced: bool) -> String {
    let mut digits = String::new();
    for i in 0..1 + length(rng) {
        if i > 0 && spaced && rng.once_in(4) {
            digits.push(' ');
        }
        let zero = rng.once_in(4);
        digits.push(char::from(if zero { b'0' } else { b'0' + rng.below(10) as u8 }));
    }
    digits
}

/// A float as written.
pub fn float(rng: &mut Rng, spaced: bool) -> String {
    let exponent = |rng: &mut Rng| format!("e{}{}", rng.pick(&["", "+", "-"]), digits(rng, spaced));
    let minus = rng.pick(&["", "", "-"]);
    let form = rng.below(4);
    let mantissa = match form {
        0 => format!("{}.", digits(rng, spaced)),
        1 => format!("{}.{}", digits(rng, spaced), digits(rng, spaced)),
        2 => format!(".{}", digits(rng, spaced)),
        _ => digits(rng, spaced),
    };
    let tail = if form == 3 || rng.once_in(3) { exponent(rng) } else { String::new() };
    format!("{minus}{mantissa}{tail}")
}

/// A string or a key as written, what it means, and how many escapes it has.
pub struct Spelled {
    pub written: String,
    pub meant: Vec<u8>,
    pub escapes: usize,
}

/// A quoted string, with many backslashes if `rich`.
pub fn quoted(rng: &mut Rng, rich: bool) -> Spelled {
    let double = rng.once_in(2);
    let quote = if double { '"' } else { '\'' };
    let mut written = String::from(quote);
    let mut meant = String::new();
    let mut escapes = 0;
    for _ in 0..length(rng) {
        let piece = if double { double_piece(rng, rich) } else { single_piece(rng, rich) };
        written.push_str(&piece.written);
        meant.push_str(&piece.text);
        escapes += usize::from(piece.escape);
    }
    written.push(quote);
    Spelled { written, meant: meant.into_bytes(), escapes }
}

/// A key written anew, bare where it can be or in double quotes with escapes.
pub fn written_anew(rng: &mut Rng, key: &[u8]) -> String {
    let text = String::from_utf8_lossy(key);
    let bare = !text.is_empty() && text.bytes().all(|byte| byte.is_ascii_alphanumeric() || byte == b'-');
    if bare && rng.once_in(2) {
        return text.into_owned();
    }
    let piece = |scalar: char| match scalar {
        '"' | '\\' => format!("\\{scalar}"),
        ' '..='~' if !rng.once_in(3) => scalar.to_string(),
        _ => format!("\\u{{{:x}}}", scalar as u32),
    };
    format!("\"{}\"", text.chars().map(piece).collect::<String>())
}

/// A piece of a quoted string as written, its text, and whether it is an escape.
struct Piece {
    written: String,
    text: String,
    escape: bool,
}

impl Piece {
    fn escape(written: impl Into<String>, text: impl Into<String>) -> Piece {
        Piece { written: written.into(), text: text.into(), escape: true }
    }

    /// What stands for itself.
    fn itself(text: String) -> Piece {
        Piece { written: text.clone(), text, escape: false }
    }
}

/// An escape, a character, or one with a backslash before it that stays.
fn single_piece(rng: &mut Rng, rich: bool) -> Piece {
    let scalar = if rich && rng.once_in(3) { ['\'', '\\'][rng.below(2)] } else { character(rng) };
    match scalar {
        '\'' | '\\' => Piece::escape(format!("\\{scalar}"), scalar),
        _ if rng.once_in(if rich { 3 } else { 6 }) => Piece::itself(format!("\\{scalar}")),
        _ => Piece::itself(scalar.into()),
    }
}

/// An escape or a character.
fn double_piece(rng: &mut Rng, rich: bool) -> Piece {
    const ESCAPES: [(&str, &str); 8] = [
        ("\\\"", "\""),
        ("\\\\", "\\"),
        ("\\/", "/"),
        ("\\b", "\u{8}"),
        ("\\f", "\u{C}"),
        ("\\n", "\n"),
        ("\\r", "\r"),
        ("\\t", "\t"),
    ];
    match rng.below(if rich { 4 } else { 8 }) {
        0 => {
            let (form, text) = ESCAPES[rng.below(8)];
            Piece::escape(form, text)
        }
        1 => scalar_escape(rng),
        _ => match character(rng) {
            scalar @ ('"' | '\\') => Piece::escape(format!("\\{scalar}"), scalar),
            scalar => Piece::itself(scalar.into()),
        },
    }
}

fn scalar_escape(rng: &mut Rng) -> Piece {
    const SOME: [u32; 10] = [0, 0x7F, 0x80, 0xD7FF, 0xE000, 0xFFFE, 0xFFFF, 0xD8000, 0x10FFFF, 0x61];
    let point = if rng.once_in(2) { SOME[rng.below(10)] } else { rng.below(0x110000) as u32 };
    let scalar = char::from_u32(point).unwrap_or('\u{FFFD}');
    let short = if rng.once_in(2) { format!("{:x}", scalar as u32) } else { format!("{:X}", scalar as u32) };
    let zeros = rng.below(7 - short.len());
    Piece::escape(format!("\\u{{{}{short}}}", "0".repeat(zeros)), scalar)
}

/// Hex pairs as written with single spaces between some, and the bytes.
pub fn pairs(rng: &mut Rng, least: usize) -> (String, Vec<u8>) {
    let bytes: Vec<u8> = (0..least.max(length(rng))).map(|_| rng.word() as u8).collect();
    let mut written = String::new();
    for (i, byte) in bytes.iter().enumerate() {
        if i > 0 && rng.once_in(2) {
            written.push(' ');
        }
        written.push_str(&format!("{byte:02x}"));
    }
    (written, bytes)
}

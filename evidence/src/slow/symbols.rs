//! The symbols of document 01's grammar, and what the terminals make of a byte.

use super::characters::Part;
use Symbol::*;

/// Characters that may stand at a place: all but LF, and but these.
#[derive(Clone, Copy, PartialEq, Eq, Hash)]
pub enum But {
    Space,
    Double,
    Single,
}

#[derive(Clone, Copy, PartialEq, Eq, Hash)]
pub enum Class {
    Digit,
    Key,
    LowerHex,
    Escape,
    SingleEscape,
    Sign,
}

/// `room` is how many containers may still be opened; columns are as in the paper.
#[derive(Clone, Copy, PartialEq, Eq, Hash)]
pub enum Symbol {
    // Terminals.
    Byte(u8),
    OneOf(Class),
    Spaces(u32),
    Word(&'static [u8]),
    Character(But, Part),
    Scalar {
        digits: u32,
        value: u32,
    },
    // Document and lines.
    Document(u32),
    Root(u32),
    Blanks,
    Comment,
    /// What may follow a character that is no space, up to a line's end.
    Ending,
    Text,
    MaybeLineComment,
    // Scalars.
    Value {
        spaced: bool,
        room: u32,
    },
    Number {
        spaced: bool,
    },
    Digits {
        spaced: bool,
    },
    MoreDigits {
        spaced: bool,
    },
    MaybeExponent {
        spaced: bool,
    },
    Exponent {
        spaced: bool,
    },
    Quoted,
    DoubleRest,
    SingleRest,
    /// No bytes: stands behind each escape.
    Escaped,
    Key,
    BareRest,
    Bytes,
    Pairs,
    MorePairs,
    InlineArray(u32),
    ArrayRest(u32),
    InlineObject(u32),
    Entry(u32),
    ObjectRest(u32),
    // Blocks.
    ObjectHere {
        column: u32,
        room: u32,
    },
    MoreProperties {
        column: u32,
        room: u32,
    },
    Property {
        column: u32,
        room: u32,
    },
    PropertyValue {
        column: u32,
        room: u32,
    },
    Nested {
        column: u32,
        room: u32,
    },
    MoreQuoted(u32),
    Array {
        column: u32,
        room: u32,
    },
    MoreItems {
        column: u32,
        room: u32,
    },
    Item {
        column: u32,
        room: u32,
    },
    OpenString(u32),
    PropertyString(u32),
    Body(u32),
    OpenBytes(u32),
    PropertyBytes(u32),
    HexContent,
    HexLine(u32),
    HexLines(u32),
    Deeper(u32),
    MoreSpaces,
}

/// What a terminal makes of a byte.
pub enum Consumed {
    No,
    Whole,
    Part(Symbol),
}

pub fn is_terminal(symbol: Symbol) -> bool {
    match symbol {
        Byte(_) | OneOf(_) | Character(..) | Scalar { .. } => true,
        Spaces(count) => count > 0,
        Word(word) => !word.is_empty(),
        _ => false,
    }
}

/// A terminal that can no longer be completed consumes nothing, and neither does it come to stand.
pub fn consume(symbol: Symbol, byte: u8) -> Consumed {
    match symbol {
        Byte(this) => whole_if(this == byte),
        OneOf(class) => whole_if(is_of(class, byte)),
        Spaces(count) if byte == b' ' => Consumed::Part(Spaces(count - 1)),
        Word(word) if word[0] == byte => Consumed::Part(Word(&word[1..])),
        Character(but, part) => consume_character(but, part, byte),
        Scalar { digits, value } => consume_scalar(digits, value, byte),
        _ => Consumed::No,
    }
}

fn whole_if(condition: bool) -> Consumed {
    if condition {
        Consumed::Whole
    } else {
        Consumed::No
    }
}

fn is_of(class: Class, byte: u8) -> bool {
    let list: &[u8] = match class {
        Class::Digit => b"0123456789",
        Class::Key => b"abcdefghijklmnopqrstuvwxyzABCDEFGHIJKLMNOPQRSTUVWXYZ0123456789_-",
        Class::LowerHex => b"0123456789abcdef",
        Class::Escape => b"\"\\/bfnrt",
        Class::SingleEscape => b"'\\",
        Class::Sign => b"+-",
    };
    list.contains(&byte)
}

fn consume_character(but: But, part: Part, byte: u8) -> Consumed {
    let left_out: &[u8] = match but {
        But::Space => b"\n ",
        But::Double => b"\n\"\\",
        But::Single => b"\n'\\",
    };
    match part.and(byte) {
        Some(_) if left_out.contains(&byte) => Consumed::No,
        Some(more) if more.whole() => Consumed::Whole,
        Some(more) => Consumed::Part(Character(but, more)),
        None => Consumed::No,
    }
}

/// "1 to 6 hex digits of either case naming a scalar value (not D800..DFFF, at most 10FFFF)".
fn consume_scalar(digits: u32, value: u32, byte: u8) -> Consumed {
    if byte == b'}' {
        return whole_if(names_scalar(digits, value));
    }
    match char::from(byte).to_digit(16) {
        Some(digit) if can_name_scalar(digits + 1, value * 16 + digit) => {
            Consumed::Part(Scalar { digits: digits + 1, value: value * 16 + digit })
        }
        _ => Consumed::No,
    }
}

fn names_scalar(digits: u32, value: u32) -> bool {
    (1..=6).contains(&digits) && char::from_u32(value).is_some()
}

fn can_name_scalar(digits: u32, value: u32) -> bool {
    names_scalar(digits, value) || digits < 6 && (0..16).any(|digit| can_name_scalar(digits + 1, value * 16 + digit))
}

//! Document 01's grammar, as document 02 mends it: for each symbol its alternatives, in the paper's order.

use super::characters::Part;
use super::symbols::Symbol::{self, *};
use super::symbols::{But, Class};
use super::UNLIMITED;

const LF: Symbol = Byte(b'\n');
const SP: Symbol = Byte(b' ');

fn but(but: But) -> Symbol {
    Character(but, Part::NOTHING)
}

/// The room inside one more container, if there is any.
fn inside(room: u32) -> Option<u32> {
    if room == UNLIMITED {
        return Some(UNLIMITED);
    }
    room.checked_sub(1)
}

type Rules = Vec<Vec<Symbol>>;

/// The alternatives of a symbol that is no terminal.
pub fn rules(symbol: Symbol) -> Rules {
    match symbol {
        Document(_) | Root(_) | Blanks | Comment | Ending | Text | MaybeLineComment => of_lines(symbol),
        Value { .. } | Number { .. } | Digits { .. } | MoreDigits { .. } | MaybeExponent { .. } | Exponent { .. } => {
            of_numbers(symbol)
        }
        InlineArray(room) | InlineObject(room) if inside(room).is_none() => vec![],
        Quoted | DoubleRest | SingleRest | Escaped | Key | BareRest | Bytes | Pairs | MorePairs => of_strings(symbol),
        InlineArray(_) | ArrayRest(_) | InlineObject(_) | Entry(_) | ObjectRest(_) => of_inline(symbol),
        OpenString(_) | PropertyString(_) | Body(_) | Deeper(_) | MoreSpaces => of_block_strings(symbol),
        OpenBytes(_) | PropertyBytes(_) | HexContent | HexLine(_) | HexLines(_) => of_block_bytes(symbol),
        Spaces(0) | Word(b"") => vec![vec![]],
        _ => of_blocks(symbol),
    }
}

/// "Characters and lines"; Blocks 1.
fn of_lines(symbol: Symbol) -> Rules {
    match symbol {
        Document(room) => vec![vec![Comment, LF, Document(room)], vec![Root(room), Blanks]],
        Root(room) => vec![
            vec![ObjectHere { column: 0, room }],
            vec![Array { column: 0, room }],
            vec![OpenString(0)],
            vec![OpenBytes(0)],
            vec![Value { spaced: true, room }, LF],
        ],
        Blanks => vec![vec![], vec![LF, Blanks]],
        Comment => vec![vec![Byte(b'#'), Ending]],
        Ending => vec![vec![], vec![but(But::Space), Ending], vec![SP, Text]],
        Text => vec![vec![but(But::Space), Ending], vec![SP, Text]],
        MaybeLineComment => vec![vec![], vec![SP, SP, Comment]],
        _ => unreachable!("no line's symbol"),
    }
}

/// "Scalars": keywords, integers and floats.
fn of_numbers(symbol: Symbol) -> Rules {
    match symbol {
        Value { spaced, room } => vec![
            vec![Word(b"null")],
            vec![Word(b"true")],
            vec![Word(b"false")],
            vec![Word(b"nan")],
            vec![Word(b"infinity")],
            vec![Word(b"-infinity")],
            vec![Number { spaced }],
            vec![Byte(b'-'), Number { spaced }],
            vec![Quoted],
            vec![Bytes],
            vec![InlineArray(room)],
            vec![InlineObject(room)],
        ],
        Number { spaced } => {
            let d = Digits { spaced };
            vec![
                vec![d],
                vec![d, Byte(b'.'), MaybeExponent { spaced }],
                vec![d, Byte(b'.'), d, MaybeExponent { spaced }],
                vec![Byte(b'.'), d, MaybeExponent { spaced }],
                vec![d, Exponent { spaced }],
            ]
        }
        Digits { spaced } => vec![vec![OneOf(Class::Digit), MoreDigits { spaced }]],
        MoreDigits { spaced: false } => vec![vec![], vec![Digits { spaced: false }]],
        MoreDigits { spaced } => vec![vec![], vec![Digits { spaced }], vec![SP, Digits { spaced }]],
        MaybeExponent { spaced } => vec![vec![], vec![Exponent { spaced }]],
        Exponent { spaced } => {
            let d = Digits { spaced };
            vec![vec![Byte(b'e'), d], vec![Byte(b'e'), OneOf(Class::Sign), d]]
        }
        _ => unreachable!("no number's symbol"),
    }
}

/// "Scalars": quoted strings, keys and inline bytes.
fn of_strings(symbol: Symbol) -> Rules {
    let bar = Byte(b'\\');
    match symbol {
        Quoted => vec![vec![Byte(b'"'), DoubleRest], vec![Byte(b'\''), SingleRest]],
        DoubleRest => vec![
            vec![Byte(b'"')],
            vec![but(But::Double), DoubleRest],
            vec![bar, OneOf(Class::Escape), Escaped, DoubleRest],
            vec![bar, Byte(b'u'), Byte(b'{'), Scalar { digits: 0, value: 0 }, Escaped, DoubleRest],
        ],
        SingleRest => vec![
            vec![Byte(b'\'')],
            vec![but(But::Single), SingleRest],
            vec![bar, OneOf(Class::SingleEscape), Escaped, SingleRest],
            // Ticket 3: "a backslash before any other allowed character but LF stays as itself, that character too,
            // and is not counted as an escape".
            vec![bar, but(But::Single), SingleRest],
        ],
        Escaped => vec![vec![]],
        Key => vec![vec![OneOf(Class::Key), BareRest], vec![Quoted]],
        BareRest => vec![vec![], vec![OneOf(Class::Key), BareRest]],
        Bytes => vec![vec![Word(b"<>")], vec![Byte(b'<'), Pairs, Byte(b'>')]],
        Pairs => vec![vec![OneOf(Class::LowerHex), OneOf(Class::LowerHex), MorePairs]],
        MorePairs => vec![vec![], vec![Pairs], vec![SP, Pairs]],
        _ => unreachable!("no string's symbol"),
    }
}

/// "Inline array `[a, b]` and object `{k: v, k: v}`".
fn of_inline(symbol: Symbol) -> Rules {
    match symbol {
        InlineArray(room) => {
            let room = inside(room).unwrap_or(0);
            vec![vec![Word(b"[]")], vec![Byte(b'['), Value { spaced: false, room }, ArrayRest(room)]]
        }
        ArrayRest(room) => {
            vec![vec![Byte(b']')], vec![Word(b", "), Value { spaced: false, room }, ArrayRest(room)]]
        }
        InlineObject(room) => {
            let room = inside(room).unwrap_or(0);
            vec![vec![Word(b"{}")], vec![Byte(b'{'), Entry(room), ObjectRest(room)]]
        }
        Entry(room) => vec![vec![Key, Word(b": "), Value { spaced: false, room }]],
        ObjectRest(room) => vec![vec![Byte(b'}')], vec![Word(b", "), Entry(room), ObjectRest(room)]],
        _ => unreachable!("no inline symbol"),
    }
}

/// Blocks 2 to 4: objects, nested content and arrays. A container without room has no alternative.
fn of_blocks(symbol: Symbol) -> Rules {
    match symbol {
        ObjectHere { column, room } => inside(room)
            .map(|room| vec![Property { column, room }, MoreProperties { column, room }])
            .into_iter()
            .collect(),
        MoreProperties { column, room } => {
            vec![vec![], vec![Spaces(column), Property { column, room }, MoreProperties { column, room }]]
        }
        Property { column, room } => vec![vec![Key, Byte(b':'), PropertyValue { column, room }]],
        PropertyValue { column, room } => vec![
            vec![SP, Value { spaced: true, room }, MaybeLineComment, LF],
            vec![SP, PropertyString(column)],
            vec![SP, PropertyBytes(column)],
            vec![MaybeLineComment, LF, Nested { column: column + 2, room }],
        ],
        Nested { column, room } => {
            let one = [Spaces(column), Quoted, LF];
            vec![
                vec![Array { column, room }],
                vec![Spaces(column), ObjectHere { column, room }],
                vec![Spaces(column), OpenString(column)],
                [&one[..], &one[..], &[MoreQuoted(column)]].concat(),
            ]
        }
        MoreQuoted(column) => vec![vec![], vec![Spaces(column), Quoted, LF, MoreQuoted(column)]],
        Array { column, room } => inside(room).map(|room| items(column, room)).into_iter().collect(),
        MoreItems { column, room } => vec![vec![], items(column, room)],
        Item { column, room } => of_items(column, room),
        _ => unreachable!("no block's symbol"),
    }
}

/// "Each n spaces, `- `, item."
fn items(column: u32, room: u32) -> Vec<Symbol> {
    vec![Spaces(column), Word(b"- "), Item { column: column + 2, room }, MoreItems { column, room }]
}

fn of_items(column: u32, room: u32) -> Rules {
    let mut rules = vec![
        vec![Value { spaced: true, room }, MaybeLineComment, LF],
        vec![OpenString(column)],
        vec![OpenBytes(column)],
        vec![ObjectHere { column, room }],
    ];
    if let Some(room) = inside(room) {
        rules.push(vec![Word(b"- "), Item { column: column + 2, room }]);
    }
    rules
}

/// Blocks 5.
fn of_block_strings(symbol: Symbol) -> Rules {
    let grave = Byte(b'`');
    match symbol {
        OpenString(column) => vec![vec![grave, LF, Body(column)], vec![grave, SP, Text, LF, Body(column)]],
        PropertyString(column) => vec![vec![grave, LF, Body(column)]],
        Body(column) => {
            vec![vec![], vec![LF, Body(column)], vec![Deeper(column), but(But::Space), Ending, LF, Body(column)]]
        }
        Deeper(column) => vec![vec![Spaces(column + 1), MoreSpaces]],
        MoreSpaces => vec![vec![], vec![SP, MoreSpaces]],
        _ => unreachable!("no block string's symbol"),
    }
}

/// Blocks 6.
fn of_block_bytes(symbol: Symbol) -> Rules {
    let sign = Byte(b'>');
    match symbol {
        OpenBytes(column) => vec![vec![sign, SP, HexContent, LF, HexLines(column)]],
        PropertyBytes(column) => vec![
            vec![sign, LF, HexLine(column), HexLines(column)],
            vec![sign, SP, Comment, LF, HexLine(column), HexLines(column)],
        ],
        HexContent => vec![vec![Pairs, MaybeLineComment], vec![Comment]],
        HexLine(column) => vec![vec![Deeper(column), HexContent, LF]],
        HexLines(column) => vec![vec![], vec![HexLine(column), HexLines(column)]],
        _ => unreachable!("no block bytes' symbol"),
    }
}

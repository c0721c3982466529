//! Documents that could cost more than their length: each of one shape and about a given size, accepted or refused.

/// A shape's name and how a document of about so many bytes is made.
type Shape = (&'static str, fn(usize) -> Vec<u8>);

pub const HOSTILE: [Shape; 47] = [
    ("nothing but `- `", |size| filled("", "- ", "", size)),
    ("nothing but `[`", |size| filled("", "[", "", size)),
    ("all spaces", |size| filled("", " ", "", size)),
    ("all line feeds", |size| filled("", "\n", "", size)),
    ("a value and line feeds", |size| filled("1", "\n", "\n", size)),
    ("a value and spaces", |size| filled("a: 1", " ", "", size)),
    ("one long key", |size| filled("", "k", ": 1\n", size)),
    ("one long quoted key", |size| filled("\"", "k", "\": 1\n", size)),
    ("one long quoted key of escapes", |size| filled("\"", "\\n", "\": 1\n", size)),
    ("one long string", |size| filled("\"", "s", "\"\n", size)),
    ("one long string of escapes", |size| filled("\"", "\\u{1F600}", "\"\n", size)),
    ("one long single-quoted string of escapes", |size| filled("'", "\\\\", "'\n", size)),
    ("one long single-quoted string of backslashes that stay", |size| filled("'", "\\n", "'\n", size)),
    ("one long integer", |size| filled("", "7", "\n", size)),
    ("one long integer with spaces", |size| filled("", "7 ", "7\n", size)),
    ("one long integer of zeros", |size| filled("", "0", "\n", size)),
    ("one long float", |size| filled("1.", "7", "e1\n", size)),
    ("one long inline array", |size| filled("[1", ", 1", "]\n", size)),
    ("values in one line behind a long string", |size| behind_text("s", size)),
    ("values in one line behind non-ASCII text", |size| behind_text("é日😀", size)),
    ("non-ASCII strings in one line", |size| filled("[1", ", \"é日😀\"", "]\n", size)),
    ("one long inline object", |size| numbered("{a: 1", ", k$: 1", "}\n", size)),
    ("one long line of bytes", |size| filled("<", "00 ", "00>\n", size)),
    ("one long comment", |size| filled("#", " c", "\n1\n", size)),
    ("comments", |size| filled("", "#\n", "1\n", size)),
    ("line comments", |size| filled("", "- 1  #\n", "", size)),
    ("comments among block bytes", |size| filled("> 00\n", " #\n", "", size)),
    ("deep block arrays", |size| filled("", &["- ".repeat(32), "1\n".into()].concat(), "", size)),
    ("deep block objects", deep_objects),
    ("deep inline arrays", |size| filled("", &["- ", &"[".repeat(31), &"]".repeat(31), "\n"].concat(), "", size)),
    ("deep inline objects", |size| {
        filled("", &["- ", &"{a: ".repeat(31), "1", &"}".repeat(31), "\n"].concat(), "", size)
    }),
    ("dedents", |size| numbered("", "k$:\n  a:\n    b: 1\n", "", size)),
    ("quoted keys of items", |size| filled("", "- \"k\": 1\n", "", size)),
    ("quoted keys below 31 bullets", below_bullets),
    ("joined strings", |size| filled("k:\n  \"a\"\n", "  \"a\"\n", "", size)),
    ("a block string of blank lines", |size| filled("`\n", "\n", "  x\n", size)),
    ("a block string of one line of spaces", |size| filled("`\n", " ", "x\n", size)),
    ("a block string of short lines", |size| filled("`\n", " x\n  x\n", "", size)),
    ("block strings without text", |size| filled("", "- `\n", "", size)),
    ("an unterminated string", |size| filled("\"", "s", "", size)),
    ("an unterminated string of an item", |size| filled("- \"", "s", "", size)),
    ("an unterminated inline array", |size| filled("[1", ", 1", "", size)),
    ("CHAR at the end of a flat object", |size| numbered("", "k$: 1\n", "\x7F", size)),
    ("SYNTAX at the end of a flat object", |size| numbered("", "k$: 1\n", "a: 1 \n", size)),
    ("SYNTAX at the end of deep block arrays", |size| {
        filled("", &["- ".repeat(32), "1\n".into()].concat(), "- 1 \n", size)
    }),
    ("DEEP at the end of deep block arrays", |size| {
        filled("", &["- ".repeat(32), "1\n".into()].concat(), &"- ".repeat(33), size)
    }),
    ("REPEAT at the end of a flat object", |size| numbered("a: 1\n", "k$: 1\n", "a: 1\n", size)),
];

/// `head`, then `piece` as often as fits, then `tail`.
fn filled(head: &str, piece: &str, tail: &str, size: usize) -> Vec<u8> {
    let count = (size - head.len() - tail.len()) / piece.len();
    [head, &piece.repeat(count), tail].concat().into_bytes()
}

/// The same, with a running number for `$`.
fn numbered(head: &str, piece: &str, tail: &str, size: usize) -> Vec<u8> {
    let mut doc = head.to_string();
    for i in 0.. {
        let next = piece.replace('$', &i.to_string());
        if doc.len() + next.len() + tail.len() > size {
            break;
        }
        doc.push_str(&next);
    }
    doc.push_str(tail);
    doc.into_bytes()
}

/// A string of half the bytes, and small integers behind it in the same line.
fn behind_text(piece: &str, size: usize) -> Vec<u8> {
    let head = ["[\"", &piece.repeat(size / 2 / piece.len()), "\""].concat();
    filled(&head, ", 1", "]\n", size)
}

/// One object inside 31 arrays of one element.
fn below_bullets(size: usize) -> Vec<u8> {
    let head = ["- ".repeat(31), "\"k\": 1\n".into()].concat();
    numbered(&head, &[" ".repeat(62), "\"k$\": 1\n".into()].concat(), "", size)
}

/// Objects 32 deep, one after the other.
fn deep_objects(size: usize) -> Vec<u8> {
    let lines: Vec<String> = (1..31).map(|depth| format!("{}k:\n", "  ".repeat(depth))).collect();
    numbered("", &["k$:\n", &lines.concat(), &"  ".repeat(31), "k: 1\n"].concat(), "", size)
}

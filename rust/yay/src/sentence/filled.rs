//! The names that sentences of the table hold, each behind a `$`, and what stands for them.

use super::at::At;
use super::characters::{begun, character, forbidden};
use super::lines::{columns, key_above};
use super::plain::keyword;
use super::quoted::{closer, opened, unbraced};
use super::scan::scan;
use crate::limits::{LONGEST, NESTING};
use crate::place::{position, Place};
use crate::repeat::first_key;
use crate::shown::quoted;

type Filler = fn(&At) -> String;

pub const NAMES: &[(&str, Filler)] = &[
    ("here", here),
    ("found", found),
    ("byte", |at| byte(at, at.place)),
    ("begun", |at| byte(at, begun(at).unwrap_or(at.place))),
    ("code", |at| forbidden(at).map_or(String::new(), |forbidden| format!("U+{:04X}", forbidden as u32))),
    ("escape", |at| forbidden(at).map_or(String::new(), |forbidden| format!("\\u{{{:x}}}", forbidden as u32))),
    ("opened", |at| opened(at).map_or(String::new(), |(offset, byte)| told(at, offset, byte))),
    ("open", |at| scan(at.before()).open.last().map_or(String::new(), |(offset, byte)| told(at, *offset, *byte))),
    ("closer", |at| scan(at.before()).open.last().map_or(String::new(), |(_, byte)| quoted(&[closer(*byte)]))),
    ("ended", |at| scan(at.before()).ended.map_or(String::new(), |offset| column(at, offset).to_string())),
    ("keyword", |at| keyword(at).unwrap_or_default().into()),
    ("braced", |at| format!("\\u{{{}}}", String::from_utf8_lossy(unbraced(at).unwrap_or_default()))),
    ("columns", told_columns),
    ("above", |at| key_above(at).map_or(String::new(), |(_, key)| quoted(key))),
    ("key", |at| first_key(at.doc, Place(at.place)).map_or(String::new(), |(key, _)| quoted(&key))),
    ("first", |at| {
        first_key(at.doc, Place(at.place)).map_or(String::new(), |(_, first)| position(at.doc, first).to_string())
    }),
    ("nesting", |_| NESTING.to_string()),
    ("longest", |_| LONGEST.to_string()),
];

/// A sentence of the table with the names in it filled.
pub fn fill(says: &str, at: &At) -> String {
    let mut parts = says.split('$');
    let mut filled = String::from(parts.next().unwrap_or_default());
    for part in parts {
        let length = part.bytes().take_while(u8::is_ascii_lowercase).count();
        let filler = NAMES.iter().find(|(name, _)| *name == &part[..length]);
        filled.push_str(&filler.map_or(String::new(), |(_, filler)| filler(at)));
        filled.push_str(&part[length..]);
    }
    filled
}

/// What the place has, and that it may not stand there.
fn here(at: &At) -> String {
    match at.byte() {
        Some(b'\n') => "the line may not end here".into(),
        Some(b' ') => "a space may not stand here".into(),
        _ => format!("{} may not stand here", found(at)),
    }
}

fn found(at: &At) -> String {
    match character(&at.doc[at.place..]) {
        Some(character) => quoted(character.to_string().as_bytes()),
        None => format!("the byte {}", byte(at, at.place)),
    }
}

fn byte(at: &At, place: usize) -> String {
    at.doc.get(place).map_or(String::new(), |byte| format!("0x{byte:02x}"))
}

fn told(at: &At, offset: usize, byte: u8) -> String {
    let name = match byte {
        b'"' => "the double quote".into(),
        b'\'' => "the single quote".into(),
        bracket => quoted(&[bracket]),
    };
    format!("{name} opened at column {}", column(at, offset))
}

fn column(at: &At, offset: usize) -> usize {
    position(at.doc, Place(at.start + offset)).column
}

fn told_columns(at: &At) -> String {
    let columns: Vec<_> = columns(at).iter().map(usize::to_string).collect();
    match &columns[..] {
        [] => String::new(),
        [only] => only.clone(),
        [all @ .., last] => format!("{} or {last}", all.join(", ")),
    }
}

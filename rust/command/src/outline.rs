//! `yay show` and `yay load`: the tree as an indented outline, a line for each value.

use crate::accepted::accept;
use crate::input::{self, Form};
use crate::stop::{Done, Stop};
use crate::words::Words;
use std::io::Write;
use yay::shown::quoted;
use yay::{Document, Kind, Number, Row, Tree, ROOT};

/// A table that was read or loaded answers every question that is asked of it here.
pub fn broken(number: Number) -> Stop {
    Stop::File(format!("the table of rows is broken: {number}"))
}

pub fn run(words: &Words, out: &mut dyn Write) -> Done {
    outline(words, words.form(), out)
}

/// `yay load`: the same of a stored form.
pub fn run_loaded(words: &Words, out: &mut dyn Write) -> Done {
    outline(words, Form::Stored, out)
}

fn outline(words: &Words, form: Form, out: &mut dyn Write) -> Done {
    let document = accept(&input::open(words.one_file()?, form)?)?;
    let tree = document.tree();
    let places = Places::asked(words, form, &tree)?;
    writeln!(out, "{}{}{}", places.before(&tree, ROOT)?, value(&tree, ROOT)?, escapes(&document))?;
    write_children(&tree, ROOT, 1, &places, out)
}

/// Line and column before each value, where they are asked for; of a stored form, which has no lines, the byte.
struct Places {
    form: Form,
    /// The width of the widest; 0 where nobody asks.
    width: usize,
}

impl Places {
    fn asked(words: &Words, form: Form, tree: &Tree) -> Result<Places, Stop> {
        let mut places = Places { form, width: 0 };
        if words.has("--places") {
            for row in (0..tree.rows()).map(Row) {
                places.width = places.width.max(places.place(tree, row)?.len());
            }
        }
        Ok(places)
    }

    fn before(&self, tree: &Tree, row: Row) -> Result<String, Stop> {
        match self.width {
            0 => Ok(String::new()),
            width => Ok(format!("{:<width$}  ", self.place(tree, row)?)),
        }
    }

    fn place(&self, tree: &Tree, row: Row) -> Result<String, Stop> {
        match self.form {
            Form::Document => Ok(tree.position(row).map_err(broken)?.to_string()),
            Form::Stored => Ok(tree.span(row).map_err(broken)?.start.0.to_string()),
        }
    }
}

/// A word of the document's escapes, behind what is said of it; nothing where there are none.
pub fn escapes(document: &Document) -> String {
    match document.escapes() {
        0 => String::new(),
        1 => ", 1 escape".into(),
        count => format!(", {count} escapes"),
    }
}

fn write_children(tree: &Tree, container: Row, depth: usize, places: &Places, out: &mut dyn Write) -> Done {
    let mut name = String::new();
    for (index, row) in tree.children(container).enumerate() {
        if tree.kind(row) == Ok(Kind::Key) {
            name = key(tree.text(row).map_err(broken)?);
            continue;
        }
        if tree.kind(container) == Ok(Kind::Array) {
            name = index.to_string();
        }
        let before = places.before(tree, row)?;
        writeln!(out, "{before}{:indent$}{name}: {}", "", value(tree, row)?, indent = 2 * depth)?;
        write_children(tree, row, depth + 1, places, out)?;
    }
    Ok(())
}

/// A key as it may be written: bare where that is one.
pub fn key(text: &[u8]) -> String {
    let bare = |byte: &u8| byte.is_ascii_alphanumeric() || matches!(byte, b'_' | b'-');
    match std::str::from_utf8(text) {
        Ok(name) if !name.is_empty() && text.iter().all(bare) => name.into(),
        _ => quoted(text),
    }
}

fn value(tree: &Tree, row: Row) -> Result<String, Stop> {
    let kind = tree.kind(row).map_err(broken)?;
    Ok(match kind {
        Kind::Null | Kind::False | Kind::True => kind.name().into(),
        Kind::Array => counted(kind, tree.count(row).map_err(broken)?, "element"),
        Kind::Object => counted(kind, tree.count(row).map_err(broken)?, "pair"),
        _ => format!("{} {}", kind.name(), text(kind, tree.text(row).map_err(broken)?)),
    })
}

fn counted(kind: Kind, count: usize, what: &str) -> String {
    let plural = if count == 1 { "" } else { "s" };
    format!("{} of {count} {what}{plural}", kind.name())
}

/// A row's text in one line, long ones cut.
pub fn text(kind: Kind, text: &[u8]) -> String {
    const MOST: usize = 32;
    match kind {
        Kind::String | Kind::Key => quoted(text),
        Kind::Bytes if text.len() > MOST => format!("<{}…> of {} bytes", hex(&text[..MOST]), text.len()),
        Kind::Bytes => format!("<{}>", hex(text)),
        _ => String::from_utf8_lossy(text).into_owned(),
    }
}

pub fn hex(bytes: &[u8]) -> String {
    const DIGITS: &[u8; 16] = b"0123456789abcdef";
    let digit = |half: u8| DIGITS[half as usize] as char;
    bytes.iter().flat_map(|byte| [digit(byte >> 4), digit(byte & 15)]).collect()
}

//! `yay get`: the value behind a path of keys, and of numbers from 0 in arrays.

use crate::accepted::accepted;
use crate::json::{self, Style};
use crate::outline::{broken, hex};
use crate::stop::{complain, Done, Stop};
use crate::words::Words;
use std::ffi::OsStr;
use std::io::Write;
use std::os::unix::ffi::OsStrExt;
use yay::{Kind, Missing, Number, Row, Tree, ROOT};

pub fn run(words: &Words, out: &mut dyn Write) -> Done {
    let (file, keys) = words.plain.split_first().ok_or_else(|| words.wrong("needs a file and keys"))?;
    let style = Style::asked(words)?;
    if words.has("--raw") && words.has("--json") {
        return Err(words.wrong("takes --raw or --json, not both"));
    }
    let document = accepted(words, file)?;
    let tree = document.tree();
    let steps: Vec<_> = keys.iter().map(|key| key.as_bytes()).collect();
    match (tree.path(ROOT, &steps), words.value("--default")) {
        (Ok(row), _) if words.has("--json") => json::write(&tree, row, &style, out),
        (Ok(row), _) if words.has("--raw") => write_raw(words, &tree, row, out),
        (Ok(row), _) => write(&tree, row, &style, out),
        (Err(Missing::Row(number)), _) => Err(broken(number)),
        (Err(_), Some(default)) => write_default(default, words.has("--raw"), out),
        (Err(missing), None) => {
            complain(&said(&missing));
            Err(Stop::Missing)
        }
    }
}

fn said(missing: &Missing) -> String {
    match missing {
        Missing::Step { kind: Kind::Object, .. } => {
            format!("{} ({}): {missing}", Number::None.name(), Number::None.code())
        }
        _ => missing.to_string(),
    }
}

/// A scalar's text as it is, bytes as hex, a container as JSON; and a line end.
fn write(tree: &Tree, row: Row, style: &Style, out: &mut dyn Write) -> Done {
    match tree.kind(row).map_err(broken)? {
        Kind::Array | Kind::Object => return json::write(tree, row, style, out),
        Kind::Bytes => out.write_all(hex(tree.text(row).map_err(broken)?).as_bytes())?,
        _ => out.write_all(bytes(tree, row)?)?,
    }
    Ok(out.write_all(b"\n")?)
}

fn write_raw(words: &Words, tree: &Tree, row: Row, out: &mut dyn Write) -> Done {
    match tree.kind(row).map_err(broken)? {
        kind @ (Kind::Array | Kind::Object) => {
            Err(words.wrong(&format!("--raw takes a value with a text, and this is an {}", kind.name())))
        }
        _ => Ok(out.write_all(bytes(tree, row)?)?),
    }
}

/// A scalar's text, or its keyword.
fn bytes<'a>(tree: &Tree<'a>, row: Row) -> Result<&'a [u8], Stop> {
    match tree.kind(row).map_err(broken)? {
        kind @ (Kind::Null | Kind::False | Kind::True) => Ok(kind.name().as_bytes()),
        _ => tree.text(row).map_err(broken),
    }
}

fn write_default(default: &OsStr, raw: bool, out: &mut dyn Write) -> Done {
    out.write_all(default.as_bytes())?;
    Ok(out.write_all(if raw { b"" } else { b"\n" })?)
}

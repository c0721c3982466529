//! `yay json`: the tree as JSON. The JSON type of a value follows from its kind alone, unless `--numbers=exact` is
//! asked for.

use crate::accepted::accepted;
use crate::numbers::{float, is_exact_float, is_exact_integer};
use crate::outline::{broken, hex};
use crate::stop::{Done, Stop};
use crate::words::Words;
use std::io::Write;
use yay::shown::is_hidden;
use yay::{Kind, Row, Tree};

/// How numbers are written.
#[derive(Clone, Copy, PartialEq)]
enum Numbers {
    /// As JSON numbers, with all their digits.
    Json,
    /// As strings of their text.
    Text,
    /// As JSON numbers where binary64 changes nothing, else as strings.
    Exact,
}

pub struct Style {
    compact: bool,
    numbers: Numbers,
}

impl Style {
    pub fn asked(words: &Words) -> Result<Style, Stop> {
        let numbers = match words.value("--numbers").map(|value| value.as_encoded_bytes()) {
            None | Some(b"json") => Numbers::Json,
            Some(b"text") => Numbers::Text,
            Some(b"exact") => Numbers::Exact,
            Some(_) => return Err(words.wrong("takes json, text or exact behind --numbers")),
        };
        Ok(Style { compact: words.has("--compact"), numbers })
    }

    /// A line end and the indentation of a depth.
    fn line(&self, depth: usize) -> String {
        if self.compact {
            String::new()
        } else {
            format!("\n{:indent$}", "", indent = 2 * depth)
        }
    }

    fn colon(&self) -> &'static str {
        if self.compact {
            ":"
        } else {
            ": "
        }
    }
}

pub fn run(words: &Words, out: &mut dyn Write) -> Done {
    let style = Style::asked(words)?;
    write(&accepted(words, words.one_file()?)?.tree(), yay::ROOT, &style, out)
}

/// A value as JSON, and a line end.
pub fn write(tree: &Tree, row: Row, style: &Style, out: &mut dyn Write) -> Done {
    write_value(tree, row, 0, style, out)?;
    Ok(writeln!(out)?)
}

fn write_value(tree: &Tree, row: Row, depth: usize, style: &Style, out: &mut dyn Write) -> Done {
    let kind = tree.kind(row).map_err(broken)?;
    match kind {
        Kind::Array => write_container(tree, row, depth, style, out),
        Kind::Object => write_container(tree, row, depth, style, out),
        _ => Ok(out.write_all(scalar(tree, kind, row, style)?.as_bytes())?),
    }
}

fn write_container(tree: &Tree, row: Row, depth: usize, style: &Style, out: &mut dyn Write) -> Done {
    let [open, close] = if tree.kind(row) == Ok(Kind::Array) { ["[", "]"] } else { ["{", "}"] };
    out.write_all(open.as_bytes())?;
    let (mut comma, mut after_key) = ("", false);
    for child in tree.children(row) {
        if !after_key {
            write!(out, "{comma}{}", style.line(depth + 1))?;
            comma = ",";
        }
        write_value(tree, child, depth + 1, style, out)?;
        after_key = tree.kind(child) == Ok(Kind::Key);
        if after_key {
            out.write_all(style.colon().as_bytes())?;
        }
    }
    if !comma.is_empty() {
        out.write_all(style.line(depth).as_bytes())?;
    }
    Ok(out.write_all(close.as_bytes())?)
}

fn scalar(tree: &Tree, kind: Kind, row: Row, style: &Style) -> Result<String, Stop> {
    if matches!(kind, Kind::Null | Kind::False | Kind::True) {
        return Ok(kind.name().into());
    }
    let bytes = tree.text(row).map_err(broken)?;
    let text = String::from_utf8_lossy(bytes);
    Ok(match (kind, style.numbers) {
        (Kind::Integer, Numbers::Json) => text.into(),
        (Kind::Integer, Numbers::Exact) if is_exact_integer(bytes) => text.into(),
        (Kind::Float, Numbers::Json) => float(&text).unwrap_or_else(|| string(&text)),
        (Kind::Float, Numbers::Exact) if is_exact_float(&text) => float(&text).unwrap_or_else(|| string(&text)),
        // No string is an object, so bytes are told from every string.
        (Kind::Bytes, _) => format!("{{\"$bytes\"{}{}}}", style.colon(), string(&hex(bytes))),
        _ => string(&text),
    })
}

/// A JSON string; what a terminal would not show as itself is escaped.
fn string(text: &str) -> String {
    let mut json = String::from("\"");
    for character in text.chars() {
        match character {
            '"' => json.push_str("\\\""),
            '\\' => json.push_str("\\\\"),
            '\n' => json.push_str("\\n"),
            '\t' => json.push_str("\\t"),
            '\r' => json.push_str("\\r"),
            hidden if is_hidden(hidden) => {
                let mut units = [0; 2];
                hidden.encode_utf16(&mut units).iter().for_each(|unit| json.push_str(&format!("\\u{unit:04x}")));
            }
            shown => json.push(shown),
        }
    }
    json.push('"');
    json
}

#[cfg(test)]
mod tests {
    use super::*;

    fn styled(doc: &str, compact: bool, numbers: Numbers) -> String {
        let document = yay::Document::read(doc.as_bytes()).expect("a document");
        let mut out = Vec::new();
        assert!(write(&document.tree(), yay::ROOT, &Style { compact, numbers }, &mut out).is_ok());
        String::from_utf8(out).unwrap()
    }

    fn json(doc: &str, numbers: Numbers) -> String {
        styled(doc, true, numbers).trim_end().into()
    }

    #[test]
    fn containers() {
        let doc = "a: []\nb: {}\n'c\"':\n  - null\n  - d: true\n";
        assert_eq!(json(doc, Numbers::Json), r#"{"a":[],"b":{},"c\"":[null,{"d":true}]}"#);
        let lines =
            "{\n  \"a\": [],\n  \"b\": {},\n  \"c\\\"\": [\n    null,\n    {\n      \"d\": true\n    }\n  ]\n}\n";
        assert_eq!(styled(doc, false, Numbers::Json), lines);
    }

    #[test]
    fn the_type_of_a_number_follows_from_its_kind() {
        let doc = "[7, -9007199254740993, 1.5, 1e999, 0.12345678901234567, nan, -infinity]\n";
        let all = r#"[7,-9007199254740993,1.5,1e999,0.12345678901234567,"nan","-infinity"]"#;
        assert_eq!(json(doc, Numbers::Json), all);
        let all = r#"["7","-9007199254740993","1.5","1e999","0.12345678901234567","nan","-infinity"]"#;
        assert_eq!(json(doc, Numbers::Text), all);
        let all = r#"[7,"-9007199254740993",1.5,"1e999","0.12345678901234567","nan","-infinity"]"#;
        assert_eq!(json(doc, Numbers::Exact), all);
    }

    #[test]
    fn bytes_are_told_from_strings() {
        assert_eq!(json("[<00ff>, \"00ff\", <>]\n", Numbers::Json), r#"[{"$bytes":"00ff"},"00ff",{"$bytes":""}]"#);
        assert_eq!(styled("<00ff>\n", false, Numbers::Text), "{\"$bytes\": \"00ff\"}\n");
    }

    #[test]
    fn strings_are_escaped() {
        assert_eq!(json("\"\\u{1b}\\n\\u{e0001}é\"\n", Numbers::Json), r#""\u001b\n\udb40\udc01é""#);
    }
}

//! Where the first of two equal keys stands. The reader's answer has the place of the later one alone; the reader
//! is asked again, of the document cut behind a fresh key in the later one's place.

use crate::document::Document;
use crate::limits::NESTING;
use crate::place::Place;
use crate::refusal::Number;
use crate::tree::{Kind, Row};

/// The decoded key that stands at `again` for the second time, and the place of the first.
///
/// ```
/// let doc = b"a: 1\nb: 2\n\"\\u{61}\": 3\n";
/// let again = yay::Document::read(doc).unwrap_err().place;
/// assert_eq!(yay::first_key(doc, again), Some((b"a".to_vec(), yay::Place(0))));
/// ```
pub fn first_key(doc: &[u8], again: Place) -> Option<(Vec<u8>, Place)> {
    let key = decoded(doc.get(again.0..)?)?;
    let cut = complete(&doc[..again.0], &fresh(doc))?;
    let tree = cut.tree();
    let later = (0..tree.rows()).map(Row).find(|row| is_key_at(&cut, *row, again))?;
    let value = tree.find(tree.parent(later).ok()?, &key).ok()?;
    let first = tree.span(Row(value.0.checked_sub(1)?)).ok()?.start;
    Some((key, first))
}

fn is_key_at(document: &Document, row: Row, place: Place) -> bool {
    let tree = document.tree();
    tree.kind(row) == Ok(Kind::Key) && tree.span(row).is_ok_and(|span| span.start == place)
}

/// The key that the bytes begin with, decoded by reading it as a document's only key.
fn decoded(bytes: &[u8]) -> Option<Vec<u8>> {
    let length = match bytes.first()? {
        quote @ (b'"' | b'\'') => quoted_length(bytes, *quote)?,
        _ => bytes.iter().position(|byte| *byte == b':')?,
    };
    let document = Document::read(&[b"{", &bytes[..length], b": 0}\n"].concat()).ok()?;
    let key = document.tree().text(Row(1)).ok()?;
    Some(key.to_vec())
}

/// How many bytes the quoted string has that the bytes begin with, its quotes counted.
pub(crate) fn quoted_length(bytes: &[u8], quote: u8) -> Option<usize> {
    let mut at = 1;
    while *bytes.get(at)? != quote {
        at += if bytes[at] == b'\\' { 2 } else { 1 };
    }
    Some(at + 1)
}

/// A bare key that the document has nowhere.
fn fresh(doc: &[u8]) -> Vec<u8> {
    let names = (0..).map(|number: u32| format!("{number:x}").into_bytes());
    let mut unused = names.filter(|name| !doc.windows(name.len()).any(|part| part == name));
    unused.next().unwrap_or_default()
}

/// The document that goes on with a fresh key and then ends as soon as it may: the reader tells which of the three
/// endings is not refused.
fn complete(start: &[u8], key: &[u8]) -> Option<Document> {
    let mut doc = [start, key, b": 0"].concat();
    for _ in 0..=NESTING {
        if let Ok(document) = Document::read(&[&doc[..], b"\n"].concat()) {
            return Some(document);
        }
        let closer = *b"}]".iter().find(|closer| goes_on(&doc, **closer))?;
        doc.push(closer);
    }
    None
}

fn goes_on(doc: &[u8], byte: u8) -> bool {
    let answer = Document::read(&[doc, &[byte]].concat());
    answer.is_err_and(|refusal| refusal.number == Number::End)
}

#[cfg(test)]
mod tests {
    use super::*;

    fn found(doc: &str) -> (String, usize) {
        let refusal = Document::read(doc.as_bytes()).expect_err("refused");
        assert_eq!(refusal.number, Number::Repeat);
        let (key, place) = first_key(doc.as_bytes(), refusal.place).expect("found");
        (String::from_utf8(key).unwrap(), place.0)
    }

    #[test]
    fn in_blocks() {
        assert_eq!(found("a: 1\na: 2\na: 3\n"), ("a".into(), 0));
        assert_eq!(found("x:\n  - a: 1\n    b: 2\n    \"\\u{62}\": `\n      t\n"), ("b".into(), 16));
        assert_eq!(found("a: `\n  t\n\nb: 1\n'a':\n  c: 1\n"), ("a".into(), 0));
    }

    #[test]
    fn inline() {
        assert_eq!(found("[{a: 1}, {b: [1], a: {c: 1, c: 2}}]\n"), ("c".into(), 22));
        assert_eq!(found("k: [{\"\": 1, '': 2}]\n"), ("".into(), 5));
        assert_eq!(found("- {\"q\\\"\": 1, 'q\"': 2}\n"), ("q\"".into(), 3));
    }
}

//! Backslashes in single quotes: `\'` and `\\` are escapes; before any other character but LF a backslash stays as
//! itself, and that character too.

use yay::{Document, Number, ROOT};

/// The text of a value behind the key `k`, of the same value in brackets, and of a document that is the value alone.
fn texts(value: &str) -> [String; 3] {
    let text = |doc: String, steps: &[&str]| {
        let document = Document::read(doc.as_bytes()).expect("a document");
        let tree = document.tree();
        tree.str(tree.path(ROOT, steps).unwrap()).unwrap().to_owned()
    };
    [text(format!("k: {value}\n"), &["k"]), text(format!("[{value}]\n"), &["0"]), text(format!("{value}\n"), &[])]
}

fn refused(doc: &[u8]) -> (Number, usize) {
    let refusal = Document::read(doc).expect_err("refused");
    (refusal.number, refusal.place.0)
}

#[test]
fn before_other_characters_it_stays() {
    for kept in [r"C:\img", r"\u{41}", r"\n", r"\ ", r#"\""#, r"\/", r"\#", r"\]", r"\é", r"\€", r"\😀", r"\a\b"] {
        assert_eq!(texts(&format!("'{kept}'")), [kept; 3]);
    }
}

#[test]
fn escapes_are_as_before() {
    for (written, text) in [(r"\\", r"\"), (r"\'", "'"), (r"\\\'", r"\'"), (r"\\n", r"\n"), (r"\\\\\n", r"\\\n")] {
        assert_eq!(texts(&format!("'{written}'")), [text; 3], "{written}");
    }
}

#[test]
fn an_escaped_quote_closes_nothing() {
    assert_eq!(refused(b"'\\'\n"), (Number::Syntax, 3));
    assert_eq!(refused(b"'\\\\\\'\n"), (Number::Syntax, 5));
    assert_eq!(refused(b"'C:\\'\n"), (Number::Syntax, 5));
    assert_eq!(refused(b"['\\', '']\n"), (Number::Syntax, 7));
}

#[test]
fn no_line_ends_behind_it() {
    assert_eq!(refused(b"'a\\\n"), (Number::Syntax, 3));
    assert_eq!(refused(b"'a\\\n'\n"), (Number::Syntax, 3));
    assert_eq!(refused(b"'a\\"), (Number::End, 3));
}

#[test]
fn what_is_no_character_is_none_behind_it() {
    assert_eq!(refused(b"'\\\t'\n"), (Number::Char, 2));
    assert_eq!(refused(b"'\\\x7f'\n"), (Number::Char, 2));
    assert_eq!(refused(b"'\\\xff'\n"), (Number::Char, 2));
    assert_eq!(refused(b"'\\\xc3'\n"), (Number::Char, 3));
    assert_eq!(refused(b"'\\\xe2\x82'\n"), (Number::Char, 4));
    assert_eq!(refused(b"'\\\xc3"), (Number::End, 3));
}

#[test]
fn keys_are_written_so_too() {
    let document = Document::read(b"'HKLM\\img': {'\\\xc3\xa9': 1, '\\\\': 2}\n").unwrap();
    let tree = document.tree();
    for (key, value) in [(r"\é", 1), (r"\", 2)] {
        assert_eq!(tree.integer(tree.path(ROOT, &[r"HKLM\img", key]).unwrap()), Ok(value));
    }
    assert_eq!(refused(b"'a\\\n: 1\n"), (Number::Syntax, 3));
    assert_eq!(refused(b"{'\\': 1}\n"), (Number::Syntax, 8));
    assert_eq!(refused(b"'\\a': 1\n\"\\\\a\": 2\n"), (Number::Repeat, 8));
}

#[test]
fn joined_strings_are_written_so_too() {
    let document = Document::read(b"k:\n  'C:\\img'\n  '\\'\\\\'\n  \"\\n\"\n  '\\n'\n").unwrap();
    let tree = document.tree();
    assert_eq!(tree.str(tree.find(ROOT, "k").unwrap()), Ok("C:\\img'\\\n\\n"));
    assert_eq!(refused(b"k:\n  'x'\n  'a\\\n"), (Number::Syntax, 14));
    assert_eq!(refused(b"k:\n  'x'\n  '\\'\n"), (Number::Syntax, 14));
    assert_eq!(refused(b"k:\n  'x'\n  '\\\t'\n"), (Number::Char, 13));
}

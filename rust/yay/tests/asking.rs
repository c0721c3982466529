//! Questions of good tables and of broken ones.

use std::cmp::Ordering;
use yay::{compare, Document, Number, Row, Tree, ROOT, WORDS};

#[test]
fn keys_are_found_decoded() {
    let document = Document::read(b"\"Gr\\u{f6}\xc3\x9fe\": 1\n\"\": 2\n").unwrap();
    let tree = document.tree();
    assert_eq!(tree.find(ROOT, "Größe"), Ok(Row(2)));
    assert_eq!(tree.find(ROOT, ""), Ok(Row(4)));
    assert_eq!(tree.find(ROOT, "other"), Err(Number::None));
    assert_eq!(tree.find(Row(2), "a"), Err(Number::BadRow));
    assert_eq!(tree.find(Row(5), "a"), Err(Number::BadRow));
}

#[test]
fn rows_without_text_are_bad() {
    let document = Document::read(b"[null]\n").unwrap();
    let tree = document.tree();
    assert_eq!(tree.text(ROOT), Err(Number::BadRow));
    assert_eq!(tree.text(Row(1)), Err(Number::BadRow));
    assert_eq!(tree.text(Row(2)), Err(Number::BadRow));
    assert_eq!(tree.text(Row(usize::MAX)), Err(Number::BadRow));
}

#[test]
fn broken_tables_are_answered() {
    let text = b"ab";
    let one = |kind, start, end, next| [kind, 0, 0, start, end, 0, next, 1, 1];
    assert_eq!(Tree::new(&one(6, 2, 1, 1), 1, text).text(ROOT), Err(Number::BadRow));
    assert_eq!(Tree::new(&one(6, 0, 3, 1), 1, text).text(ROOT), Err(Number::BadRow));
    assert_eq!(Tree::new(&one(6, 0, 2, 1)[..WORDS - 1], 1, text).text(ROOT), Err(Number::BadRow));
    assert_eq!(Tree::new(&one(6, 0, 2, 1), 1, text).text(ROOT), Ok(&text[..]));
    assert_eq!(Tree::new(&one(9, 0, 1, 9), 1, text).find(ROOT, "a"), Err(Number::BadRow));
    assert_eq!(Tree::new(&one(9, 0, 1, 1), 1, text).find(ROOT, "a"), Err(Number::None));
    assert_eq!(Tree::new(&[], usize::MAX, text).find(Row(usize::MAX - 1), "a"), Err(Number::BadRow));
    let table = [one(8, 0, 1, 9), one(1, 0, 0, 1)];
    assert_eq!(Tree::new(table.as_flattened(), 2, text).children(ROOT).count(), 0);
}

#[test]
fn questions_pass_over_lines_and_columns() {
    for word in [0, 1, u32::MAX] {
        let table =
            [[9, 0, 9, 0, 1, 0, 3, word, word], [10, 0, 1, 0, 1, 0, 2, word, word], [6, 3, 9, 1, 2, 0, 3, word, word]];
        let tree = Tree::new(table.as_flattened(), 3, b"kv");
        assert_eq!(tree.find(ROOT, "k"), Ok(Row(2)));
        assert_eq!(tree.text(Row(2)), Ok(&b"v"[..]));
        assert_eq!((tree.line(Row(2)), tree.column(Row(1))), (Ok(word as usize), Ok(word as usize)));
    }
}

#[test]
fn integers_compare_as_numbers() {
    let ordered: [&[u8]; 7] = [b"-100000000000000000000", b"-10", b"-9", b"0", b"9", b"10", b"100000000000000000000"];
    for (i, left) in ordered.iter().enumerate() {
        for (j, right) in ordered.iter().enumerate() {
            assert_eq!(compare(left, right), Ok(i.cmp(&j)));
        }
    }
    assert_eq!(compare(b"1", b"1"), Ok(Ordering::Equal));
    for bad in ["", "-", "-0", "01", "1.5", "+1", " 1"] {
        assert_eq!(compare(bad.as_bytes(), b"1"), Err(Number::NotInt));
        assert_eq!(compare(b"1", bad.as_bytes()), Err(Number::NotInt));
    }
}

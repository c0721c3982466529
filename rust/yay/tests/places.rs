//! The line and column of each row, from 1, columns in characters.

use yay::{position, read, Document, Number, Place, Position, Row, ROOT, WORDS};

/// Line and column of each row; each is also what the crate counts for the row's first byte.
fn places(doc: &str) -> Vec<(usize, usize)> {
    let document = Document::read(doc.as_bytes()).unwrap_or_else(|refusal| panic!("{doc:?}: {refusal}"));
    let tree = document.tree();
    let place = |row: usize| {
        let Position { line, column } = tree.position(Row(row)).unwrap();
        assert_eq!((tree.line(Row(row)), tree.column(Row(row))), (Ok(line), Ok(column)));
        let counted = position(doc.as_bytes(), tree.span(Row(row)).unwrap().start);
        assert_eq!(Position { line, column }, counted, "row {row} of {doc:?}");
        (line, column)
    };
    (0..tree.rows()).map(place).collect()
}

#[test]
fn examples_of_the_request() {
    assert_eq!(places("[1, 22]\n"), [(1, 1), (1, 2), (1, 5)]);
    assert_eq!(places("\"é\": [1]\n"), [(1, 1), (1, 1), (1, 6), (1, 7)]);
    assert_eq!(places("# a comment\n1\n"), [(2, 1)]);
}

#[test]
fn a_character_is_one_column() {
    for (text, characters) in [("é", 1), ("日本", 2), ("😀", 1), ("e\u{301}", 2), ("\u{FEFF}", 1), ("\\u{e9}", 6)]
    {
        assert_eq!(places(&format!("[\"{text}\", 1]\n"))[2], (1, 6 + characters), "{text}");
        assert_eq!(places(&format!("a:\n  - \"{text}\": 1\n"))[5], (2, 9 + characters), "{text}");
    }
}

#[test]
fn every_line_counts() {
    assert_eq!(places("#\n# é\n- 1\n"), [(3, 1), (3, 3)]);
    assert_eq!(places("a: `\n\n  é\n\n  x\n\nb: 1\n")[2..], [(1, 4), (7, 1), (7, 4)]);
    assert_eq!(places("a:  # é\n  \"é\"\n  'x'\nb: 1  # é\nc: 2\n")[2..], [(2, 3), (4, 1), (4, 4), (5, 1), (5, 4)]);
    assert_eq!(places("- > 00  # é\n   # é\n   01\n- - {}\n"), [(1, 1), (1, 3), (4, 3), (4, 5)]);
}

#[test]
fn in_long_documents_as_in_short_ones() {
    for lines in [1, 50, 51, 800, 801, 1_400] {
        let last = places(&"- {\"é\": ['日', 1]}\n".repeat(lines));
        assert_eq!(last[last.len() - 5..], [(lines, 3), (lines, 4), (lines, 9), (lines, 10), (lines, 15)]);
    }
    let doc = format!("[{}1]\n", "\"é\", ".repeat(5_000));
    let document = Document::read(doc.as_bytes()).unwrap();
    assert_eq!(document.tree().position(Row(5_001)), Ok(Position { line: 1, column: 2 + 5 * 5_000 }));
}

#[test]
fn a_table_needs_nine_words_a_row() {
    let (mut table, mut text) = ([9; 3 * 9], [9; 3]);
    for words in [0, 3 * 7, 3 * 9 - 1] {
        let refusal = read(b"[1, 22]\n", &mut table[..words], &mut text).unwrap_err();
        assert_eq!((refusal.number, refusal.place, table), (Number::Rows, Place(3), [9; 3 * 9]));
    }
    let tree = read(b"[1, 22]\n", &mut table, &mut text).unwrap().tree;
    assert_eq!((WORDS, tree.line(Row(2)), tree.column(Row(2))), (9, Ok(1), Ok(5)));
    assert_eq!((tree.line(Row(3)), tree.position(Row(usize::MAX))), (Err(Number::BadRow), Err(Number::BadRow)));
    assert_eq!(tree.position(ROOT).unwrap().to_string(), "1:1");
}

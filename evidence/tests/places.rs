//! The line and column of each row: by the second reader, and counted again from what stands before a row.

use evidence::compare::places::{agree, COLUMN, LINE};
use evidence::second::{Refusal, Second, ROWS, WORDS};

/// Line and column of each row.
fn places(doc: &str) -> Vec<(u32, u32)> {
    let given = Second::new().given(doc.as_bytes()).unwrap_or_else(|no| panic!("{doc:?}: {no:?}"));
    assert!(agree(doc.as_bytes(), &given.words), "{doc:?}");
    given.words.chunks_exact(WORDS).map(|row| (row[LINE], row[COLUMN])).collect()
}

#[test]
fn border_p3() {
    let words = Second::new().given(b"[1, 22]\n").map(|given| given.words);
    let rows = [[8, 0, 7, 0, 2, 0, 3, 1, 1], [4, 1, 2, 0, 1, 0, 2, 1, 2], [4, 4, 6, 1, 3, 0, 3, 1, 5]];
    assert_eq!(words, Ok(rows.concat()));
}

#[test]
fn a_character_is_one_column() {
    assert_eq!(places("\"é\": [1]\n"), [(1, 1), (1, 1), (1, 6), (1, 7)]);
    for (text, characters) in
        [("é", 1), ("日本", 2), ("😀", 1), ("e\u{301}", 2), ("\u{FEFF}", 1), ("a\\n", 3), ("\u{A0}", 1)]
    {
        assert_eq!(places(&format!("[\"{text}\", 1]\n"))[2], (1, 6 + characters), "{text}");
        assert_eq!(places(&format!("\"{text}\": 1\n"))[2], (1, 5 + characters), "{text}");
        assert_eq!(places(&format!("k:\n  '{text}': {{a: 1}}\n"))[4], (2, 7 + characters), "{text}");
    }
}

#[test]
fn comments_before_the_root_are_lines() {
    assert_eq!(places("# c\n1\n"), [(2, 1)]);
    assert_eq!(places("#\n# é\n#\n- 1\n"), [(4, 1), (4, 3)]);
}

#[test]
fn comments_behind_values_are_not_looked_at() {
    assert_eq!(places("a: 1  # é\nb: 2\n"), [(1, 1), (1, 1), (1, 4), (2, 1), (2, 4)]);
    assert_eq!(places("a:  # é\n  - 1\n"), [(1, 1), (1, 1), (2, 3), (2, 5)]);
    assert_eq!(places("- > 00  # é\n   # é\n   01\n- 2\n"), [(1, 1), (1, 3), (4, 3)]);
}

#[test]
fn every_line_of_a_value_counts() {
    assert_eq!(places("a: `\n\n  é\n\n    x\n\nb: 1\n")[3..], [(7, 1), (7, 4)]);
    assert_eq!(places("a: `\n  é\n\n  x\nb: 1\n")[3..], [(5, 1), (5, 4)]);
    assert_eq!(places("a:\n  \"é\"\n  'x'\nb: 1\n")[2..], [(2, 3), (4, 1), (4, 4)]);
}

#[test]
fn a_container_stands_where_it_begins() {
    assert_eq!(
        places("- - 1\n- k: {}\n  j:\n    - []\n"),
        [(1, 1), (1, 1 + 2), (1, 5), (2, 3), (2, 3), (2, 6), (3, 3), (4, 5), (4, 7)]
    );
}

#[test]
fn rows_are_reckoned_with_nine_words() {
    let (mut table, mut room) = ([7; 3 * 9], [0; 3]);
    let needed = Err(Refusal { number: ROWS, place: 3 });
    for words in [0, 3 * 7, 3 * 9 - 1] {
        assert_eq!(Second::new().read(b"[1, 22]\n", &mut table[..words], &mut room), needed);
        assert_eq!(table, [7; 3 * 9]);
    }
    assert!(Second::new().read(b"[1, 22]\n", &mut table, &mut room).is_ok());
}

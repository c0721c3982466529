//! Rows as values of Rust, paths, and positions in refusals.

use yay::{Document, Kind, Mismatch, Missing, Number, Position, Row, Tree, ROOT, WORDS};

const DOC: &[u8] =
    b"n: -9223372036854775808\nbig: 9223372036854775808\ns: \"\xc3\xb6\"\nt: true\nf: false\na: [[], {}, 7]\n";

fn with(test: impl Fn(&Tree, &dyn Fn(&str) -> Row)) {
    let document = Document::read(DOC).unwrap();
    let tree = document.tree();
    test(&tree, &|key| tree.find(ROOT, key).unwrap());
}

#[test]
fn scalars() {
    with(|tree, at| {
        assert_eq!(tree.integer(at("n")), Ok(i64::MIN));
        assert_eq!(tree.integer(at("big")), Err(Mismatch::Large));
        assert_eq!(tree.str(at("s")), Ok("ö"));
        assert_eq!(tree.str(Row(1)), Ok("n"));
        assert_eq!((tree.bool(at("t")), tree.bool(at("f"))), (Ok(true), Ok(false)));
    });
}

#[test]
fn another_kind_is_named() {
    with(|tree, at| {
        let wrong = tree.integer(at("s")).unwrap_err();
        assert_eq!(wrong, Mismatch::Kind { wanted: "an integer", found: Kind::String });
        assert_eq!(wrong.to_string(), "an integer was asked for, and the row is of kind string");
        assert!(tree.str(at("n")).is_err() && tree.bool(at("n")).is_err());
        assert!(tree.elements(ROOT).is_err() && tree.pairs(at("a")).is_err());
        assert_eq!(tree.str(Row(999)), Err(Mismatch::Row(Number::BadRow)));
    });
}

#[test]
fn elements_and_pairs() {
    with(|tree, at| {
        let elements: Vec<_> = tree.elements(at("a")).unwrap().map(|row| tree.kind(row).unwrap()).collect();
        assert_eq!(elements, [Kind::Array, Kind::Object, Kind::Integer]);
        let pairs: Vec<_> = tree.pairs(ROOT).unwrap().collect();
        assert_eq!(pairs.iter().map(|(key, _)| *key).collect::<Vec<_>>(), ["n", "big", "s", "t", "f", "a"]);
        assert!(pairs.iter().all(|(key, value)| at(key) == *value));
        assert_eq!(tree.elements(tree.path(at("a"), &["0"]).unwrap()).unwrap().count(), 0);
    });
}

#[test]
fn pairs_of_broken_tables_end() {
    let row = |words: &[u32]| words.iter().copied().chain(std::iter::repeat(0)).take(WORDS).collect::<Vec<_>>();
    let object = row(&[9, 0, 0, 0, 1, 0, 3]);
    let (key, bad_key) = (row(&[10, 0, 0, 0, 1, 0, 2]), row(&[10, 0, 0, 5, 9, 0, 2]));
    let value = row(&[1, 0, 0, 0, 0, 0, 3]);
    for (second, third, count) in [(&key, &value, 1), (&bad_key, &value, 0), (&value, &key, 0), (&key, &key, 0)] {
        let table = [&object[..], second, third].concat();
        let tree = Tree::new(&table, 3, b"k");
        assert_eq!(tree.pairs(ROOT).unwrap().count(), count, "{table:?}");
    }
}

#[test]
fn paths() {
    with(|tree, at| {
        assert_eq!(tree.path(ROOT, &[] as &[&str]), Ok(ROOT));
        assert_eq!(tree.integer(tree.path(ROOT, &["a", "2"]).unwrap()), Ok(7));
        assert_eq!(tree.path(ROOT, &["a", "2"]), tree.path(at("a"), &[b"2"]));
        let missing = tree.path(ROOT, &["a", "3", "x"]).unwrap_err();
        let step = Missing::Step { path: vec![b"a".to_vec()], step: b"3".to_vec(), kind: Kind::Array, count: 3 };
        assert_eq!(missing, step);
        assert_eq!(tree.path(Row(99), &["a"]), Err(Missing::Row(Number::BadRow)));
        assert!(tree.path(ROOT, &["a", "-0"]).is_err() && tree.path(ROOT, &["a", ""]).is_err());
    });
}

#[test]
fn refusals_know_their_line_and_column() {
    let refusal = Document::read("a: \"ö\"\nb: \"日\" x\n".as_bytes()).unwrap_err();
    assert_eq!(refusal.position, Some(Position { line: 2, column: 8 }));
    assert_eq!(refusal.to_string(), "SYNTAX (3): no document goes on like this, at 2:8 (byte 17)");
    let refusal = yay::read(b"1\n", &mut [], &mut []).unwrap_err();
    assert_eq!((refusal.position, refusal.sentence(b"1\n")), (None, "the table lent has too few words".into()));
}

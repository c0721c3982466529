//! The borders of documents 01 and 02, by the second reader and the slow checker of places; and the questions.

use evidence::documents::borders::borders;
use evidence::second::questions::{compare_integers, Lent, BADROW, NONE, NOTINT};
use evidence::second::{Second, WORDS};
use evidence::slow;

#[test]
fn borders_and_readings() {
    let mut second = Second::new();
    for (doc, meant) in borders() {
        assert_eq!(second.given(&doc), meant, "{:?}", String::from_utf8_lossy(&doc));
    }
}

#[test]
fn places_and_escapes_of_borders() {
    for (doc, meant) in borders().into_iter().filter(|(doc, _)| doc.len() < 1000) {
        let (answer, wanted) = (slow::answer(&doc, 32), meant.map(|given| given.escapes));
        assert!(slow::agrees(answer, wanted), "{:?}: {answer:?}", String::from_utf8_lossy(&doc));
    }
}

#[test]
fn questions() {
    let (mut table, mut room) = ([0; 7 * WORDS], [0; 9]);
    let counts = Second::new().read(b"a: 1\nb: {c: -20}\n", &mut table, &mut room).unwrap();
    let lent = Lent { table: &table, rows: counts.rows, text: &room };
    assert_eq!(lent.find_key(0, b"b"), Ok(4));
    assert_eq!(lent.find_key(4, b"c"), Ok(6));
    assert_eq!(lent.find_key(4, b"a"), Err(NONE));
    assert_eq!(lent.find_key(1, b"a"), Err(BADROW));
    assert_eq!(lent.row_text(6), Ok(4..7));
    assert_eq!(lent.row_text(4), Err(BADROW));
    assert_eq!(compare_integers(b"10", b"9"), Ok(1));
    assert_eq!(compare_integers(b"-10", b"-9"), Ok(-1));
    assert_eq!(compare_integers(b"-0", b"0"), Err(NOTINT));
    assert_eq!(compare_integers(b"", b"0"), Err(NOTINT));
}

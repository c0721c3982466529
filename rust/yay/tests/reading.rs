//! Reading into lent and own rooms, refusals and their errors.

use std::error::Error;
use yay::{read, Accepted, Document, Kind, Number, Place, Refusal, Row, LONGEST, ROOT, WORDS};

fn refused(doc: &[u8]) -> (Number, usize) {
    let refusal = Document::read(doc).expect_err("refused");
    (refusal.number, refusal.place.0)
}

#[test]
fn rows_and_text_of_p3() {
    let (mut table, mut text) = ([7; 3 * WORDS + 9], [b'x'; 5]);
    let Accepted { tree, escapes } = read(b"[1, 22]\n", &mut table, &mut text).unwrap();
    assert_eq!((tree.rows(), tree.text_room(), escapes), (3, &b"122"[..], 0));
    let rows = [[8, 0, 7, 0, 2, 0, 3, 1, 1], [4, 1, 2, 0, 1, 0, 2, 1, 2], [4, 4, 6, 1, 3, 0, 3, 1, 5]];
    assert_eq!(table[..3 * WORDS], *rows.as_flattened());
    assert_eq!((&table[3 * WORDS..], &text[3..]), (&[7; 9][..], &b"xx"[..]));
}

#[test]
fn refusals_of_the_border_table() {
    assert_eq!(refused(b""), (Number::End, 0));
    assert_eq!(refused(b"1"), (Number::End, 1));
    assert_eq!(refused(b"[1,2]\n"), (Number::Syntax, 3));
    assert_eq!(refused(b"a: nulls\n"), (Number::Syntax, 7));
    assert_eq!(refused(b"a: 1\na: 2\n"), (Number::Repeat, 5));
    assert_eq!(refused(&[b'['; 33]), (Number::Deep, 32));
    assert_eq!(refused(b"a:\t"), (Number::Char, 2));
    assert_eq!(refused(&vec![b' '; LONGEST + 1]), (Number::Long, 0));
}

#[test]
fn rooms_too_small_say_what_is_needed_and_stay() {
    let (mut table, mut text) = ([9; 3 * WORDS - 1], [9; 3]);
    let refusal = read(b"[1, 22]\n", &mut table, &mut text).unwrap_err();
    assert_eq!(refusal, Refusal { number: Number::Rows, place: Place(3), position: None });
    let mut table = [9; 3 * WORDS];
    let refusal = read(b"[1, 22]\n", &mut table, &mut text[..2]).unwrap_err();
    assert_eq!(refusal, Refusal { number: Number::Text, place: Place(3), position: None });
    assert_eq!((table, text), ([9; 3 * WORDS], [9; 3]));
    assert_eq!(refusal.to_string(), "TEXT (8): the text room or output lent has too few bytes, 3 are needed");
}

#[test]
fn empty_rooms_may_be_lent() {
    assert_eq!(read(b"", &mut [], &mut []).unwrap_err().number, Number::End);
    assert_eq!(read(b"1\n", &mut [], &mut []).unwrap_err().number, Number::Rows);
}

// YAY_STACK of include/yay.h is 112 KB: the rest of 128 KB is left for the thread itself.
#[test]
fn a_small_thread_reads_a_profile() {
    for bytes in [1_024, 16_384, 32_768, LONGEST] {
        for (begin, line, end) in
            [("", "aisle-#: {door: #, name: \"of the cold store\"}\n", ""), ("", "a-#: 1\n", ""), ("[", "#, ", "0]\n")]
        {
            let mut profile = String::from(begin);
            for i in 0.. {
                let next = line.replace('#', &i.to_string());
                if profile.len() + next.len() + end.len() > bytes {
                    break;
                }
                profile += &next;
            }
            profile += end;
            let reads = move || Document::read(profile.as_bytes()).map(|d| d.tree().rows());
            let thread = std::thread::Builder::new().stack_size(128 * 1024).spawn(reads).unwrap();
            let rows = thread.join().unwrap().unwrap();
            assert!(rows > bytes / 16, "{rows} rows");
        }
    }
}

#[test]
fn errors_are_errors() {
    fn fails() -> Result<(), Box<dyn Error>> {
        Document::read(b"a: 1\na: 2\n")?;
        Ok(())
    }
    let message = fails().unwrap_err().to_string();
    assert_eq!(message, "REPEAT (6): this key stands in its object already, at 2:1 (byte 5)");
    let error: Box<dyn Error> = Box::new(Number::None);
    assert_eq!(error.to_string(), "NONE (10): the key isn't in the object");
}

#[test]
fn numbers_and_kinds_by_code() {
    for code in (1..=16).filter(|code| *code != 12) {
        assert_eq!(Number::from_code(code).map(Number::code), Some(code));
    }
    assert_eq!([0, 12, 17].map(Number::from_code), [None; 3]);
    assert_eq!((Kind::from_code(10), Kind::from_code(0), Kind::from_code(11)), (Some(Kind::Key), None, None));
}

#[test]
fn a_tree_is_walked() {
    let document = Document::read(b"a: {b: null}\nc: [true, 1.5, <0aff>]\n").unwrap();
    let tree = document.tree();
    let kinds: Vec<_> = (0..tree.rows()).map(|row| tree.kind(Row(row)).unwrap()).collect();
    use Kind::*;
    assert_eq!(kinds, [Object, Key, Object, Key, Null, Key, Array, True, Float, Bytes]);
    assert_eq!(tree.children(ROOT).collect::<Vec<_>>(), [Row(1), Row(2), Row(5), Row(6)]);
    let array = tree.find(ROOT, "c").unwrap();
    assert_eq!((array, tree.count(array), tree.parent(array)), (Row(6), Ok(3), Ok(ROOT)));
    assert_eq!(tree.text(Row(9)), Ok(&[10, 255][..]));
    assert_eq!(tree.span(Row(9)), Ok(Place(28)..Place(34)));
    assert_eq!(tree.children(Row(7)).count(), 0);
}

//! Tables stored and loaded through the crate: the vectors, what the request says, rooms, and bytes that are no stored form.

use yay::{form_fault, load, store, stored, Document, Kind, Number, Place, Row, Tree, Unloaded, Unstored};
use yay::{LONGEST, LONGEST_STORED, NESTING, WORDS};

fn read(doc: &str) -> Document {
    Document::read(doc.as_bytes()).unwrap_or_else(|no| panic!("{no}: {doc}"))
}

fn bytes(hex: &str) -> Vec<u8> {
    (0..hex.len()).step_by(2).map(|at| u8::from_str_radix(&hex[at..at + 2], 16).expect("hex")).collect()
}

/// All vectors, where YAY_WRITTEN names their file: hex of a document, of what is written, and of what is stored.
#[test]
fn vectors() {
    let Ok(path) = std::env::var("YAY_WRITTEN") else { return };
    let file = std::fs::read_to_string(path).expect("the vectors");
    for line in file.lines() {
        let columns: Vec<_> = line.split('\t').map(bytes).collect();
        let [doc, house, form] = &columns[..] else { panic!("three columns: {line}") };
        let document = Document::read(doc).expect("a document");
        assert_eq!(document.stored().as_ref(), Ok(form), "{line}");
        let back = Document::load(form).expect("a stored form");
        assert_eq!((back.written().as_ref(), back.stored().as_ref()), (Ok(house), Ok(form)), "{line}");
        assert_eq!(form_fault(form), None, "{line}");
    }
    assert!(file.lines().count() > 300);
}

#[test]
fn what_the_request_says() {
    for (doc, form) in [
        ("[1, 22]\n", "080009040001310400023232"),
        ("null\n", "010000"),
        ("false\n", "020000"),
        ("true\n", "030000"),
        ("-.5\n", "0500032d2e35"),
        ("\"\"\n", "060000"),
        ("<00ff>\n", "07000200ff"),
        ("{}\n", "090000"),
        ("{a: null, \"\": [true]}\n", "0900100a0001610100000a0000080003030000"),
    ] {
        assert_eq!(read(doc).stored(), Ok(bytes(form)), "{doc}");
    }
}

#[test]
fn the_same_tree_but_for_spans() {
    for name in ["fleet", "forklift", "gate", "scanner", "tablet", "dock"] {
        let path = format!("{}/../../examples/{name}.yay", env!("CARGO_MANIFEST_DIR"));
        let first = Document::read(&std::fs::read(path).expect("an example")).expect("a document");
        let form = first.stored().expect("stored");
        let second = Document::load(&form).expect("a stored form");
        assert_eq!((second.stored().as_ref(), second.escapes()), (Ok(&form), 0), "{name}");
        let (one, other) = (first.tree(), second.tree());
        assert_eq!((one.rows(), one.text_room()), (other.rows(), other.text_room()), "{name}");
        assert_eq!(form.len(), 3 * one.rows() + one.text_room().len(), "{name}");
        for row in (0..one.rows()).map(Row) {
            let but_span =
                |tree: &Tree| tree.words(row).map(|words| [words[0], words[3], words[4], words[5], words[6]]);
            assert_eq!(but_span(&one), but_span(&other), "{name}, {row:?}");
            let span = other.span(row).expect("a row");
            assert_eq!(Kind::from_code(form[span.start.0].into()), other.kind(row).ok(), "{name}, {row:?}");
            assert_eq!((other.line(row), other.column(row)), (Ok(0), Ok(0)), "{name}, {row:?}");
        }
    }
}

#[test]
fn what_was_laid_over_is_stored() {
    let laid = read("{a: {b: 1}}\n").overlaid(&read("{a: {c: 2}}\n").tree()).expect("laid");
    let same = read("{a: {b: 1, c: 2}}\n");
    assert_eq!(laid.stored(), same.stored());
    assert_eq!(Document::load(&same.stored().expect("stored")).map(|loaded| loaded.written()), Ok(laid.written()));
}

#[test]
fn rooms_are_exact() {
    let document = read("{a: 1, b: \"xy\"}\n");
    let form = document.stored().expect("stored");
    let mut out = [b'-'; 24];
    assert_eq!(store(&document.tree(), &mut out[..form.len() - 1]), Err(Unstored::Short { needed: form.len() }));
    assert_eq!(out, [b'-'; 24]);
    assert_eq!(store(&document.tree(), &mut out), Ok(form.len()));
    assert!(out[..form.len()] == form && out[form.len()..].iter().all(|byte| *byte == b'-'));
    let (mut table, mut text) = ([77; 6 * WORDS], [b'-'; 7]);
    let short = load(&form, &mut table[..5 * WORDS - 1], &mut text[..2]).map(|_| ());
    assert_eq!(short, Err(Unloaded::Rows { needed: 5 }));
    let short = load(&form, &mut table[..5 * WORDS], &mut text[..4]).map(|_| ());
    assert_eq!(short, Err(Unloaded::Text { needed: 5 }));
    assert!(table == [77; 6 * WORDS] && text == [b'-'; 7]);
    let tree = load(&form, &mut table, &mut text).expect("room");
    assert_eq!((tree.rows(), tree.text_room(), stored(&tree)), (5, &b"a1bxy"[..], Ok(form)));
    assert!(table[5 * WORDS..] == [77; WORDS] && text[5..] == *b"--");
}

/// A string of so many bytes.
fn string(count: usize) -> ([u32; WORDS], Vec<u8>) {
    ([6, 0, 0, 0, count as u32, 0, 1, 0, 0], vec![b'a'; count])
}

/// Contents of 65,535 bytes stand in one field, of one more in a part and an end.
#[test]
fn parts() {
    for (count, heads) in [(65_535, 1), (65_536, 2), (131_070, 2), (131_071, 3)] {
        let (row, text) = string(count);
        let form = stored(&Tree::new(&row, 1, &text)).expect("stored");
        assert_eq!((form.len(), form[0]), (count + 3 * heads, if heads > 1 { 11 } else { 6 }));
        assert_eq!(form[(heads - 1) * 65_538], 6);
        let document = Document::load(&form).expect("a stored form");
        assert_eq!((document.tree().text(Row(0)), form_fault(&form)), (Ok(&text[..]), None));
        assert_eq!(document.tree().span(Row(0)), Ok(Place(0)..Place(form.len())));
    }
    // In an array the text and the array are cut, each where its own bytes are enough.
    let doc = format!("[\"{}\", 7]\n", "a".repeat(65_600));
    let form = read(&doc).stored().expect("stored");
    assert_eq!((form.len(), &form[..7]), (65_600 + 6 + 4 + 6, &[11, 255, 255, 11, 255, 255, b'a'][..]));
    let document = Document::load(&form).expect("a stored form");
    assert_eq!(document.written(), Ok(format!("- \"{}\"\n- 7\n", "a".repeat(65_600)).into_bytes()));
    for at in [0, 1, 2, 3, 4, 5, 65_537, 65_538, 65_539, 65_540, 65_541, 65_542, 65_543, 65_544, form.len() - 1] {
        for value in 0..=255 {
            let mut changed = form.clone();
            changed[at] = value;
            assert_eq!(form_fault(&changed).is_none(), Document::load(&changed).is_ok(), "{at} {value}");
        }
    }
}

#[test]
fn too_long_and_not_sound() {
    let longest = LONGEST_STORED - 3 * 256;
    let (row, text) = string(longest);
    let form = stored(&Tree::new(&row, 1, &text)).expect("stored");
    assert_eq!((form.len(), Document::load(&form).is_ok()), (LONGEST_STORED, true));
    let (row, text) = string(longest + 1);
    let needed = LONGEST_STORED + 1;
    assert_eq!(stored(&Tree::new(&row, 1, &text)), Err(Unstored::Short { needed }));
    assert_eq!(store(&Tree::new(&row, 1, &text), &mut vec![0; needed]), Err(Unstored::Short { needed }));
    assert_eq!(stored(&Tree::new(&row, 1, &text[1..])), Err(Unstored::Unsound));
    assert_eq!(stored(&Tree::new(&[], usize::MAX, &[])), Err(Unstored::Unsound));
    assert_eq!(Document::load(&vec![6; LONGEST_STORED + 1]), Err(Unloaded::Form));
}

/// The longest document, and the stored form of one with as many rows as it can have.
#[test]
fn the_longest_documents() {
    for doc in [format!("\"{}\"\n", "x".repeat(LONGEST - 3)), format!("[{}1]\n", "1, ".repeat((LONGEST - 4) / 3))] {
        let document = read(&doc);
        let form = document.stored().expect("stored");
        let loaded = Document::load(&form).expect("a stored form");
        assert_eq!((loaded.stored(), loaded.tree().rows()), (Ok(form), document.tree().rows()));
    }
}

fn nested(levels: usize) -> Vec<u8> {
    let inside = |form: Vec<u8>| [&[8, (form.len() >> 8) as u8, form.len() as u8][..], &form].concat();
    (0..levels).fold(vec![1, 0, 0], |form, _| inside(form))
}

#[test]
fn what_is_wrong() {
    for (form, place, said) in [
        ("", 0, "a value is missing"),
        ("0800", 0, "a field has a tag and two bytes of length, and there are fewer bytes"),
        ("0600026f", 0, "this field says that its content has 2 bytes, and there are 1"),
        ("08000704000531", 0, "this field says that its content has 7 bytes, and there are 4"),
        ("08000404000531", 3, "this field says that its content has 5 bytes, and there are 1"),
        ("0100000a", 3, "a stored form is one field, and bytes stand behind it"),
        ("000000", 0, "0 is no tag; those of values are 1 to 9"),
        ("0800030b0000", 3, "a part, which has the tag 11, has 65535 bytes, and this has 0"),
        ("0c0000", 0, "12 is no tag; those of values are 1 to 9"),
        ("ff0000", 0, "255 is no tag; those of values are 1 to 9"),
        ("0a000161", 0, "a key stands where a value has to"),
        ("03000100", 0, "true has no content, and this has 1 bytes"),
        ("0400022d30", 0, "an integer has another text than \"-0\""),
        ("05000131", 0, "a float has another text than \"1\""),
        ("060001ff", 0, "the text of a string is no UTF-8"),
        ("0900070a0001ff010000", 3, "the text of a key is no UTF-8"),
        ("090003010000", 3, "a key has the tag 10, and this is 1"),
        ("0900040a000161", 7, "a value is missing"),
        ("09000e0a0001610100000a000161020000", 10, "the key \"a\" stands in its object already"),
    ] {
        let form = bytes(form);
        let fault = form_fault(&form).unwrap_or_else(|| panic!("no fault: {form:?}"));
        assert_eq!((fault.place, fault.sentence.as_str()), (Place(place), said), "{form:?}");
        assert_eq!(Document::load(&form), Err(Unloaded::Form), "{form:?}");
    }
    assert_eq!((form_fault(&nested(NESTING)), Document::load(&nested(NESTING)).is_ok()), (None, true));
    let fault = form_fault(&nested(NESTING + 1)).expect("a fault");
    assert_eq!(fault.to_string(), "here a container stands inside 32 others, the most there may be, at byte 96");
    assert!(form_fault(&vec![8; LONGEST_STORED + 1]).is_some_and(|fault| fault.sentence.contains("16777216")));
}

#[test]
fn there_is_a_fault_exactly_where_there_is_the_number() {
    let docs = [
        "{a: [1, -2.5, \"xy\"], b: {c: null, d: <00>}, \"\": {}}\n",
        "[[[1]], {a: {a: 1}}, true]\n",
        "\"\\u{1F600}\"\n",
    ];
    let (mut good, mut bad) = (0, 0);
    let mut seen = |form: &[u8]| {
        let loaded = Document::load(form);
        assert_eq!(form_fault(form).is_some(), loaded == Err(Unloaded::Form), "{form:?}");
        *if loaded.is_ok() { &mut good } else { &mut bad } += 1;
    };
    for doc in docs {
        let form = read(doc).stored().expect("stored");
        (0..=form.len()).for_each(|cut| seen(&form[..cut]));
        for at in 0..form.len() {
            for value in 0..=255 {
                let mut changed = form.clone();
                changed[at] = value;
                seen(&changed);
            }
            let mut doubled = form.clone();
            doubled.insert(at, form[at]);
            seen(&doubled);
        }
    }
    assert!(good > 1_000 && bad > 10_000, "{good} {bad}");
}

#[test]
fn names_and_numbers() {
    let all = [Unstored::Unsound, Unstored::Short { needed: 9 }];
    assert_eq!(all.map(Unstored::number), [Number::BadRow, Number::Text]);
    assert_eq!(
        all.map(|no| no.to_string()),
        [
            "BADROW (9): the table is not sound: no document gives it",
            "TEXT (8): the output lent has too few bytes, 9 are needed",
        ]
    );
    let all = [Unloaded::Form, Unloaded::Rows { needed: 7 }, Unloaded::Text { needed: 9 }];
    assert_eq!(all.map(Unloaded::number), [Number::BadForm, Number::Rows, Number::Text]);
    assert_eq!(
        all.map(|no| no.to_string()),
        [
            "BADFORM (13): this is no stored form",
            "ROWS (7): the table lent has too few words, 7 rows are needed",
            "TEXT (8): the text room or output lent has too few bytes, 9 are needed",
        ]
    );
    assert_eq!([12, 13].map(Number::from_code), [None, Some(Number::BadForm)]);
}

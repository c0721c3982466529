//! Tables written back, sound and not; what is lent and what is refused.

use yay::{read, sound, write, written, Document, Kind, Number, Row, Tree, Unwritten, LONGEST, ROOT, WORDS};

fn back(doc: &str) -> String {
    let document = Document::read(doc.as_bytes()).unwrap_or_else(|refusal| panic!("{doc:?}: {refusal}"));
    String::from_utf8(document.written().expect("written")).expect("UTF-8")
}

#[test]
fn in_the_house_style() {
    for (doc, wanted) in [
        ("1 000\n", "1000\n"),
        ("[]\n", "[]\n"),
        ("{}\n", "{}\n"),
        ("[1, [2, [3]], {}]\n", "- 1\n- [2, [3]]\n- {}\n"),
        ("- - 5\n", "- [5]\n"),
        ("{a: {b: [1, {c: 2, d: []}]}}\n", "a:\n  b:\n    - 1\n    - c: 2\n      d: []\n"),
        ("- b: [1]\n", "- b:\n    - 1\n"),
        ("- [{a: {'b c': 1}}]\n", "- [{a: {\"b c\": 1}}]\n"),
        ("'null': nan\n\"\": -0\n'a.b': .5e+3\n", "null: nan\n\"\": 0\n\"a.b\": .5e+3\n"),
        ("a: `\n  x\n   y\nb: > # c\n  00 FF\n".replace("FF", "ff").as_str(), "a: \"x\\n y\\n\"\nb: <00ff>\n"),
        ("\"\\u{0}\\u{1F}\\b\\u{9f}\\/\\u{FFFE}\\u{41}é\"\n", "\"\\u{0}\\u{1f}\\b\\u{9f}/\\u{fffe}Aé\"\n"),
    ] {
        assert_eq!(back(doc), wanted, "{doc:?}");
        assert_eq!(back(wanted), wanted, "{doc:?}");
    }
}

/// All vectors, where YAY_WRITTEN names their file: hex of a document, of what is written, and of what is stored,
/// with tabs between.
#[test]
fn vectors() {
    let Ok(path) = std::env::var("YAY_WRITTEN") else { return };
    let bytes = |hex: &str| -> Vec<u8> {
        (0..hex.len()).step_by(2).map(|at| u8::from_str_radix(&hex[at..at + 2], 16).expect("hex")).collect()
    };
    let file = std::fs::read_to_string(path).expect("the vectors");
    for line in file.lines() {
        let (doc, rest) = line.split_once('\t').expect("a tab");
        let wanted = rest.split_once('\t').expect("another").0;
        let document = Document::read(&bytes(doc)).expect("a document");
        assert_eq!(document.written(), Ok(bytes(wanted)), "{doc}");
    }
    assert!(file.lines().count() > 300);
}

#[test]
fn comes_back_as_the_same_tree() {
    for name in ["fleet", "forklift", "gate", "scanner", "tablet", "dock"] {
        let path = format!("{}/../../examples/{name}.yay", env!("CARGO_MANIFEST_DIR"));
        let first = Document::read(&std::fs::read(path).expect("an example")).expect("a document");
        let bytes = first.written().expect("written");
        let second = Document::read(&bytes).expect("what was written is a document");
        assert_eq!(second.written().as_ref(), Ok(&bytes), "{name}");
        let (one, other) = (first.tree(), second.tree());
        assert_eq!((one.rows(), one.text_room()), (other.rows(), other.text_room()), "{name}");
        for row in (0..one.rows()).map(Row) {
            let but_span =
                |tree: &Tree| tree.words(row).map(|words| [words[0], words[3], words[4], words[5], words[6]]);
            assert_eq!(but_span(&one), but_span(&other), "{name}, {row:?}");
        }
    }
}

#[test]
fn outputs_as_lent() {
    let document = Document::read(b"[1, 22]\n").unwrap();
    let (tree, mut out) = (document.tree(), [b'x'; 12]);
    assert_eq!(write(&tree, &mut out[..8]), Err(Unwritten::Short { needed: 9 }));
    assert_eq!(write(&tree, &mut []), Err(Unwritten::Short { needed: 9 }));
    assert_eq!(out, [b'x'; 12]);
    assert_eq!(write(&tree, &mut out), Ok(9));
    assert_eq!(&out, b"- 1\n- 22\nxxx");
}

#[test]
fn rooms_may_be_longer() {
    let (mut table, mut text) = ([7; 4 * WORDS], [b'x'; 9]);
    let rows = read(b"[1, 22]\n", &mut table, &mut text).unwrap().tree.rows();
    assert!(sound(&Tree::new(&table, rows, &text)));
    assert_eq!(written(&Tree::new(&table, rows, &text)).unwrap(), b"- 1\n- 22\n");
    for rows in [0, rows - 1, rows + 1, usize::MAX] {
        assert!(!sound(&Tree::new(&table, rows, &text)), "{rows} rows");
    }
}

#[test]
fn what_is_not_sound() {
    let leaf = |kind: u32, text: &str| {
        let words = [kind, 0, 0, 0, text.len() as u32, 0, 1, 0, 0];
        let tree = Tree::new(&words, 1, text.as_bytes());
        assert_eq!(written(&tree).is_ok(), sound(&tree), "{text:?}");
        sound(&tree)
    };
    for good in ["0", "-1", "10"] {
        assert!(leaf(4, good), "{good}");
    }
    for bad in ["", "-", "-0", "00", "+1", "1.", "1 0"] {
        assert!(!leaf(4, bad), "{bad}");
    }
    for good in ["1.", ".5e+3", "-.5", "-0.", "00.50", "nan", "-infinity", "1e5"] {
        assert!(leaf(5, good), "{good}");
    }
    for bad in ["", "1", "-0", ".", "1e", "1E5", "-nan"] {
        assert!(!leaf(5, bad), "{bad}");
    }
    assert!(leaf(6, "\0") && !leaf(10, "k") && !leaf(0, "") && !leaf(11, ""));
}

#[test]
fn every_word_counts_but_spans_lines_and_columns() {
    let document = Document::read(b"a: {b: [1, \"x\"]}\nc: null\n").unwrap();
    let tree = document.tree();
    for at in 0..tree.rows() * WORDS {
        let mut table = tree.table().to_vec();
        table[at] = table[at].wrapping_add(100);
        let tree = Tree::new(&table, tree.rows(), tree.text_room());
        let passed_over = matches!(at % WORDS, 1 | 2 | 7 | 8);
        assert_eq!(sound(&tree), passed_over, "word {at}");
        assert_eq!(written(&tree).err(), (!passed_over).then_some(Unwritten::Unsound), "word {at}");
    }
}

#[test]
fn written_too_long() {
    let doc = format!("[{}1]\n", "1, ".repeat(300_000));
    let document = Document::read(doc.as_bytes()).expect("a document");
    assert_eq!((document.tree().kind(ROOT), document.written()), (Ok(Kind::Array), Err(Unwritten::Long)));
    let longest = format!("\"{}\"\n", "x".repeat(LONGEST - 3));
    assert_eq!(back(&longest), longest);
}

#[test]
fn errors_say_their_numbers() {
    for (no, number, said) in [
        (Unwritten::Unsound, Number::BadRow, "BADROW (9): the table is not sound: no document gives it"),
        (Unwritten::Long, Number::Long, "LONG (1): written back, the document has more than 1048576 bytes"),
        (Unwritten::Short { needed: 9 }, Number::Text, "TEXT (8): the output lent has too few bytes, 9 are needed"),
    ] {
        assert_eq!((no.number(), no.to_string().as_str()), (number, said));
    }
}

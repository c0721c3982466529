//! One tree laid over another through the crate: what the request says, clashes with their paths, rooms, unsound tables.

use yay::{clash, overlay, written, Document, Kind, Number, Row, Tree, Unlaid, ROOT, WORDS};

fn read(doc: &str) -> Document {
    Document::read(doc.as_bytes()).unwrap_or_else(|no| panic!("{no}: {doc}"))
}

fn laid(lower: &str, upper: &str) -> Result<String, Unlaid> {
    let document = read(lower).overlaid(&read(upper).tree())?;
    Ok(String::from_utf8(document.written().expect("short")).expect("UTF-8"))
}

#[test]
fn what_the_request_says() {
    for (lower, upper, given) in [
        ("{}\n", "{}\n", "{}\n"),
        ("{a: 1}\n", "{}\n", "a: 1\n"),
        ("{}\n", "{a: 1}\n", "a: 1\n"),
        ("{a: 1}\n", "{a: null}\n", "a: null\n"),
        ("{a: 1, b: 2}\n", "{d: 5, b: 3, c: 4}\n", "a: 1\nb: 3\nd: 5\nc: 4\n"),
        ("{a: [1, 2, {b: 1}]}\n", "{a: [{c: 1}]}\n", "a:\n  - c: 1\n"),
        ("{a: [1]}\n", "{a: 2}\n", "a: 2\n"),
        ("{a: {b: 1, c: 2}, z: 9}\n", "{y: 8, a: {d: 4, c: 3}}\n", "a:\n  b: 1\n  c: 3\n  d: 4\nz: 9\ny: 8\n"),
        ("{\"\\u{61}\": 1}\n", "{a: 2}\n", "a: 2\n"),
    ] {
        assert_eq!(laid(lower, upper).as_deref(), Ok(given), "{lower}{upper}");
        assert_eq!(clash(&read(lower).tree(), &read(upper).tree()), None);
    }
}

#[test]
fn the_result_has_no_places_and_can_be_asked() {
    let document =
        read("# Fleet\nbattery: {low-at: 0.15}\n\"a\\n\": 1\n").overlaid(&read("battery: {spare: true}\n").tree());
    let document = document.expect("laid");
    let tree = document.tree();
    let spare = tree.path(ROOT, &["battery", "spare"]).expect("there");
    assert_eq!((tree.kind(spare), tree.bool(spare)), (Ok(Kind::True), Ok(true)));
    assert_eq!(
        (tree.line(spare), tree.column(spare), tree.words(spare).unwrap()[1..3].to_vec()),
        (Ok(0), Ok(0), vec![0, 0])
    );
    assert_eq!((document.escapes(), tree.rows()), (0, 9));
    let again = document.overlaid(&tree).expect("a tree over itself");
    assert_eq!(again, document);
}

#[test]
fn clashes_have_a_path() {
    for (lower, upper, path, rows, said) in [
        ("{a: {}}\n", "{a: null}\n", &["a"][..], (2, 2), "the key \"a\" is an object below and null above"),
        ("{a: 1}\n", "{b: 2, a: {c: 3}}\n", &["a"], (2, 4), "the key \"a\" is an integer below and an object above"),
        ("{a: []}\n", "{a: {}}\n", &["a"], (2, 2), "the key \"a\" is an array below and an object above"),
        (
            "{x: 1, a: {b: {c: 1.}}}\n",
            "{a: {b: {c: {}}}}\n",
            &["a", "b", "c"],
            (8, 6),
            "the key \"a\" \"b\" \"c\" is a float below and an object above",
        ),
        // Of two the first in the lower's order.
        ("{a: {}, b: 1}\n", "{b: {}, a: 1}\n", &["a"], (2, 4), "the key \"a\" is an object below and an integer above"),
        (
            "{\"a b\": {\"\\n\": {}}}\n",
            "{\"a b\": {\"\\n\": \"x\"}}\n",
            &["a b", "\n"],
            (4, 4),
            "the key \"a b\" \"\\n\" is an object below and a string above",
        ),
    ] {
        assert_eq!(laid(lower, upper), Err(Unlaid::Clash), "{lower}{upper}");
        let (lower, upper) = (read(lower), read(upper));
        let clash = clash(&lower.tree(), &upper.tree()).expect("a clash");
        assert_eq!(
            (clash.path.as_slice(), clash.lower, clash.upper),
            (&path.map_strings()[..], Row(rows.0), Row(rows.1))
        );
        assert_eq!(clash.to_string(), said);
    }
}

#[test]
fn there_is_a_path_exactly_where_there_is_the_number() {
    let values = ["null", "1", "[]", "[{}]", "{}", "{a: 1}", "{a: {}}", "{b: [1]}", "{b: {a: 1}, a: {}}"];
    let (mut clashes, mut good) = (0, 0);
    for below in values {
        for above in values {
            for beside in values {
                let lower = read(&format!("{{x: 1, a: {below}, b: {beside}}}\n"));
                let upper = read(&format!("{{b: {above}, y: 2, a: {beside}}}\n"));
                let clash = clash(&lower.tree(), &upper.tree());
                assert_eq!(
                    clash.is_some(),
                    lower.overlaid(&upper.tree()) == Err(Unlaid::Clash),
                    "{below} {above} {beside}"
                );
                *if clash.is_some() { &mut clashes } else { &mut good } += 1;
            }
        }
    }
    assert!(clashes > 200 && good > 100, "{clashes} {good}");
}

trait Strings {
    fn map_strings(&self) -> Vec<String>;
}

impl Strings for [&str] {
    fn map_strings(&self) -> Vec<String> {
        self.iter().map(|key| key.to_string()).collect()
    }
}

#[test]
fn rooms_are_exact() {
    let (lower, upper) = (read("{a: 1, b: \"xy\"}\n"), read("{c: {}, a: 22}\n"));
    let (lower, upper) = (lower.tree(), upper.tree());
    let (mut table, mut text) = ([77; 8 * WORDS], [b'-'; 9]);
    let short = overlay(&lower, &upper, &mut table[..7 * WORDS - 1], &mut text[..6]).map(|_| ());
    assert_eq!(short, Err(Unlaid::Rows { needed: 7 }));
    let short = overlay(&lower, &upper, &mut table[..7 * WORDS], &mut text[..6]).map(|_| ());
    assert_eq!(short, Err(Unlaid::Text { needed: 7 }));
    assert!(table == [77; 8 * WORDS] && text == [b'-'; 9]);
    let tree = overlay(&lower, &upper, &mut table, &mut text).expect("room");
    assert_eq!(written(&tree).expect("short"), b"a: 22\nb: \"xy\"\nc: {}\n");
    assert_eq!((tree.rows(), tree.text_room()), (7, &b"a22bxyc"[..]));
    assert!(table[7 * WORDS..] == [77; WORDS] && text[7..] == *b"--");
}

#[test]
fn what_is_no_object_or_not_sound() {
    for (lower, upper) in [("[]\n", "{}\n"), ("{}\n", "1\n"), ("null\n", "[]\n"), ("[{a: {}}]\n", "{a: 1}\n")] {
        assert_eq!(laid(lower, upper), Err(Unlaid::Unsound));
        assert_eq!(clash(&read(lower).tree(), &read(upper).tree()), None);
    }
    let (one, other) = (read("{a: {}}\n"), read("{a: 1}\n"));
    let broken = Tree::new(other.tree().table(), 2, other.tree().text_room());
    assert_eq!(one.overlaid(&broken), Err(Unlaid::Unsound));
    assert_eq!(clash(&one.tree(), &broken), None);
    assert_eq!(one.overlaid(&Tree::new(&[], usize::MAX, &[])), Err(Unlaid::Unsound));
}

#[test]
fn names_and_numbers() {
    let all = [Unlaid::Unsound, Unlaid::Clash, Unlaid::Rows { needed: 7 }, Unlaid::Text { needed: 9 }];
    assert_eq!(all.map(Unlaid::number), [Number::BadRow, Number::Clash, Number::Rows, Number::Text]);
    assert_eq!(
        all.map(|no| no.to_string()),
        [
            "BADROW (9): a table is not sound, or its root is no object",
            "CLASH (16): an object is laid over another value, or another value over an object",
            "ROWS (7): the table lent has too few words, 7 rows are needed",
            "TEXT (8): the text room or output lent has too few bytes, 9 are needed",
        ]
    );
    assert_eq!((Number::Clash.code(), Number::from_code(16)), (16, Some(Number::Clash)));
}

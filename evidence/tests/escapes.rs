//! How many escapes a document has: by the second reader, the slow checker of places, and the spans of the rows.

use evidence::compare::forms;
use evidence::second::{Counts, Refusal, Second, REPEAT, ROWS, TEXT, WORDS};
use evidence::slow;

/// The count on which all three agree.
fn escapes(doc: &str) -> usize {
    let given = Second::new().given(doc.as_bytes()).unwrap_or_else(|no| panic!("{doc:?}: {no:?}"));
    assert_eq!(slow::answer(doc.as_bytes(), 32), Ok(given.escapes), "{doc:?}");
    assert_eq!(forms::total(doc.as_bytes(), &given.words), given.escapes, "{doc:?}");
    given.escapes
}

#[test]
fn examples_of_the_request() {
    assert_eq!(escapes("\"a\\n\\u{41}\"\n"), 2);
    assert_eq!(escapes("{\"\\t\": '\\\\', k: \"x\"}\n"), 2);
    assert_eq!(escapes("k:\n  \"a\\n\"\n  \"b\"\n  '\\'\\\\'\n"), 3);
    assert_eq!(escapes("'C:\\img'\n"), 0);
}

#[test]
fn one_for_each_form() {
    for form in ["\\\"", "\\\\", "\\/", "\\b", "\\f", "\\n", "\\r", "\\t", "\\u{0}", "\\u{1F600}", "\\u{00004a}"] {
        assert_eq!(escapes(&format!("\"{form}\"\n")), 1, "{form}");
        assert_eq!(escapes(&format!("\"x{form}{form}x{form}\"\n")), 3, "{form}");
    }
    for form in ["\\'", "\\\\"] {
        assert_eq!(escapes(&format!("'{form}'\n")), 1, "{form}");
        assert_eq!(escapes(&format!("'x{form}{form}x{form}'\n")), 3, "{form}");
    }
}

#[test]
fn none_for_a_backslash_that_stays() {
    for form in ["\\n", "\\u{41}", "\\\"", "\\/", "\\ ", "\\é", "\\😀", "\\#"] {
        assert_eq!(escapes(&format!("'{form}'\n")), 0, "{form}");
        assert_eq!(escapes(&format!("'{form}\\\\{form}\\''\n")), 2, "{form}");
    }
}

#[test]
fn wherever_strings_and_keys_stand() {
    assert_eq!(escapes("\"\\n\": 1\n'\\'': 2\n'\\k': 3\n"), 2);
    assert_eq!(escapes("k: \"\\n\"  # \"\\n\"\n"), 1);
    assert_eq!(escapes("- \"\\n\"\n- - '\\\\'\n- \"\\t\": \"\\t\"\n  k: ['\\'', {\"\\r\": []}]\n"), 6);
    assert_eq!(escapes("\"\\n\":\n  \"\\n\":\n    - \"\\n\"\n"), 3);
    assert_eq!(escapes("k:\n  \"\\n\"\n  \"\\n\"\nj: \"\\n\"\n"), 3);
}

#[test]
fn none_outside_quotes() {
    for doc in ["1\n", "k: []\n", "# \\n\n1\n", "` \\n\n  \\u{41} \"\\n\"\n", "k: `\n  '\\''\n", "<5c>\n", "\"\"\n"] {
        assert_eq!(escapes(doc), 0, "{doc:?}");
    }
}

#[test]
fn refusals_tell_none() {
    let (doc, mut table, mut room) = (b"[\"\\n\", '\\'']\n", [0; 3 * WORDS], [0; 2]);
    let mut second = Second::new();
    assert_eq!(second.read(doc, &mut table, &mut room), Ok(Counts { rows: 3, text: 2, escapes: 2 }));
    assert_eq!(second.read(doc, &mut table[..3 * WORDS - 1], &mut room), Err(Refusal { number: ROWS, place: 3 }));
    assert_eq!(second.read(doc, &mut table, &mut room[..1]), Err(Refusal { number: TEXT, place: 2 }));
    let repeated = second.given(b"\"\\n\": 1\n\"\\u{a}\": 2\n");
    assert_eq!(repeated, Err(Refusal { number: REPEAT, place: 8 }));
    assert_eq!(second.given(b"\"x\"\n").map(|given| given.escapes), Ok(0), "nothing is left of what came before");
}

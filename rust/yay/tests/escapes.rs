//! How many escapes a document has: those of keys, values and the lines of joined strings.

use yay::{read, Document, Number, ROOT, WORDS};

fn escapes(doc: &str) -> usize {
    Document::read(doc.as_bytes()).unwrap_or_else(|refusal| panic!("{doc:?}: {refusal}")).escapes()
}

#[test]
fn one_for_each_form() {
    for form in [r#"\""#, r"\\", r"\/", r"\b", r"\f", r"\n", r"\r", r"\t", r"\u{0}", r"\u{10FFFF}", r"\u{000041}"] {
        assert_eq!(escapes(&format!("\"{form}\"\n")), 1, "{form}");
        assert_eq!(escapes(&format!("k: [\"x{form}{form}\", \"{form}x\"]\n")), 3, "{form}");
    }
    assert_eq!(escapes("\"a\\n\\u{41}\"\n"), 2);
    assert_eq!(escapes("'\\''\n"), 1);
    assert_eq!(escapes("'x\\\\y\\'z\\\\\\\\'\n"), 4);
}

#[test]
fn none_for_a_backslash_that_stays() {
    for kept in [r"C:\img", r"\u{41}", r"\n", r"\ ", r#"\""#, r"\/", r"\é", r"\😀"] {
        assert_eq!(escapes(&format!("'{kept}'\n")), 0, "{kept}");
        assert_eq!(escapes(&format!("'{kept}': '{kept}\\\\{kept}'\n")), 1, "{kept}");
    }
}

#[test]
fn of_keys_and_values_wherever_they_stand() {
    assert_eq!(escapes("{\"\\t\": '\\\\', k: \"x\"}\n"), 2);
    assert_eq!(escapes("\"\\n\": 1\n'\\'':\n  \"\\n\":\n    - \"\\n\"\n    - - \"\\t\": {'\\\\': []}\n"), 6);
}

#[test]
fn of_all_lines_of_a_joined_string() {
    assert_eq!(escapes("k:\n  \"a\\n\"\n  \"b\"\n  '\\'\\\\'\n"), 3);
    assert_eq!(escapes("k:\n  \"\\n\"\n  \"\\n\"\nj:\n  'x\\y'\n  '\\''\n"), 3);
}

#[test]
fn none_outside_quotes() {
    for doc in ["1\n", "# \\n\n1\n", "` \\n\n  \"\\n\"\n", "k: `\n  '\\''\n", "<5c>\n", "k: \"x\"  # \\n\n"] {
        assert_eq!(escapes(doc), 0, "{doc:?}");
    }
}

#[test]
fn in_long_documents_as_in_short_ones() {
    for lines in [1, 50, 51, 800, 801, 1_700] {
        assert_eq!(escapes(&"- {\"\\n\": '\\'x\\y'}\n".repeat(lines)), 2 * lines);
    }
    assert_eq!(escapes(&format!("\"{}\"\n", "\\n".repeat(16_382))), 16_382);
    assert_eq!(escapes(&format!("k:\n{}", "  '\\''\n".repeat(4_600))), 4_600);
}

#[test]
fn with_rooms_lent() {
    let doc = b"[\"\\n\", '\\'']\n";
    let (mut table, mut text) = ([0; 3 * WORDS], [0; 2]);
    let accepted = read(doc, &mut table, &mut text).unwrap();
    assert_eq!((accepted.tree.rows(), accepted.tree.count(ROOT), accepted.escapes), (3, Ok(2), 2));
    assert_eq!(read(doc, &mut table[..3 * WORDS - 1], &mut text).unwrap_err().number, Number::Rows);
    assert_eq!(read(doc, &mut table, &mut text[..1]).unwrap_err().number, Number::Text);
}

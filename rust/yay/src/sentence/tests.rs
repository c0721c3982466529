//! Every row of the table on documents that show its mistake, and documents that show none.

use super::at::At;
use super::filled::NAMES;
use super::table::TABLE;
use crate::document::Document;
use crate::limits::LONGEST;
use crate::shown::quoted;

const CASES: &[(&[u8], &str)] = &[
    (&[b' '; LONGEST + 1], "there are more than 1048576 bytes, the most that a document has"),
    (&[b'['; 33], "here a container would stand inside 32 others, the most there may be"),
    (b"b: 0\na: 1\nb: {a: 3}\n\"\\u{61}\": 2\n", "the key \"b\" stands in its object already, at 1:1"),
    (b"\"\xc2\x85\"\n", "U+0085 is valid UTF-8, but not allowed in a document; in double quotes write \\u{85}"),
    (b"# \xef\xbf\xbe\n1\n", "U+FFFE is valid UTF-8, but not allowed in a document; in double quotes write \\u{fffe}"),
    (b"\"\xef\xb7\x90\"\n", "U+FDD0 is valid UTF-8, but not allowed in a document; in double quotes write \\u{fdd0}"),
    (b"\"n\xe4h\"\n", "the character begun by the byte 0xe4 does not go on with \"h\"; a document is text in UTF-8"),
    (b"\"\xe4\xb8h\"\n", "the character begun by the byte 0xe4 does not go on with \"h\"; a document is text in UTF-8"),
    (b"\"\xed\xa0\x80\"\n", "the character begun by the byte 0xed does not go on with the byte 0xa0; a document is text in UTF-8"),
    (b"a:\x091\n", "a tab may stand nowhere in a document; write spaces, or \\t in double quotes"),
    (b"'\\\x09'\n", "a tab may stand nowhere in a document; write spaces, or \\t in double quotes"),
    (b"\"\x09\"\n", "a tab may stand nowhere in a document; write spaces, or \\t in double quotes"),
    (b"a: 1\x0d\n", "a carriage return may stand nowhere in a document; a line ends in LF alone"),
    (b"a: 1\n\x1b\n", "the control byte 0x1b may stand nowhere in a document"),
    (b"\x7fELF", "the control byte 0x7f may stand nowhere in a document"),
    (b"\"\xff\"\n", "the byte 0xff begins no character; a document is text in UTF-8"),
    (b"\"\xc0\x80\"\n", "the byte 0xc0 begins no character; a document is text in UTF-8"),
    (b"", "the document is empty"),
    (b"1", "the last line does not end in a line end"),
    (b"a: `\n  it's", "the last line does not end in a line end"),
    (b"# c\n", "there are comments alone; a document has a value below them"),
    (b"# it's\n# more", "there are comments alone; a document has a value below them"),
    (b"a: \"x\xc3", "the document ends inside a character"),
    (b"a: \"x", "the document ends too early; the double quote opened at column 4 is not closed"),
    (b"a: [1, {b: 2", "the document ends too early; \"{\" opened at column 8 is not closed"),
    (b"a:\n  \"x\"\n", "the document ends too early; one string alone stands behind its key, on the key's line"),
    (b"a:\n", "the document ends too early; \"a:\" has no value"),
    (b"- k:  # c\n", "the document ends too early; \"k:\" has no value"),
    (b"a:", "the document ends too early; the last key has no value"),
    (b"a: ", "the document ends too early; the last key has no value"),
    (b"- ", "the document ends too early"),
    (b"\xef\xbb\xbf1\n", "a document may not begin with a byte order mark"),
    (b"---\na: 1\n", "the line may not end here; leave out the line \"---\""),
    (b"--- # c\n", "a space may not stand here; leave out the line \"---\""),
    (b"\na: 1\n", "a blank line may not stand above the document"),
    (b"# c\n\na: 1\n", "a blank line may not stand above the document"),
    (b"a:\n\n  b: 1\n", "a blank line may not stand here"),
    (b" # c\na: 1\n", "a space may not stand here; a comment above the document begins at column 1"),
    (b"a: 1\n# c\nb: 2\n", "a comment may not have its own line here; it stands above the document, or behind a value after two spaces"),
    (b"a: 1\n  # c\nb: 2\n", "a comment may not have its own line here; it stands above the document, or behind a value after two spaces"),
    (b"a:\n  b: 1\n  # c\n  c: 2\n", "a comment may not have its own line here; it stands above the document, or behind a value after two spaces"),
    (b"a:\n  b: 1\n\n  c: 2\n", "a space may not stand here; a blank line may not stand between properties or items"),
    (b"a: 1\n\nb: 2\n", "\"b\" may not stand here; a blank line may not stand between properties or items"),
    (b"- 1\n\n\n- 2\n", "\"-\" may not stand here; a blank line may not stand between properties or items"),
    (b"a:\n  \"x\"\nb: 1\n", "\"b\" may not stand here; one string alone stands behind its key, on the key's line"),
    (b"a:\n- 1\n- 2\n", "\"-\" may not stand here; items below a key are indented by two spaces"),
    (b"x:\n  a:\n  - 1\n", "\"-\" may not stand here; items below a key are indented by two spaces"),
    (b"k:\nj: 1\n", "\"j\" may not stand here; \"k:\" has no value, on its line or indented by two spaces below"),
    (b"- k:  # c\n  j: 1\n", "\"j\" may not stand here; \"k:\" has no value, on its line or indented by two spaces below"),
    (b"a:\n  1\n", "the line may not end here; one value alone stands behind its key, on the key's line"),
    (b"a:\n  [1]\n", "\"[\" may not stand here; one value alone stands behind its key, on the key's line"),
    (b"<AB>\n", "\"A\" may not stand here; hex digits of bytes are lowercase"),
    (b"a: >\n  AB\n", "\"A\" may not stand here; hex digits of bytes are lowercase"),
    (b"<abc>\n", "\">\" may not stand here; bytes are pairs of hex digits, and one is missing"),
    (b"a: >\n  abc\n", "the line may not end here; bytes are pairs of hex digits, and one is missing"),
    (b"a: >\n  some text\n", "\"s\" may not stand here; bytes are pairs of hex digits, and a text begins with a grave (`) instead of \">\""),
    (b"a: >\n  00\n  zz\n", "\"z\" may not stand here; bytes are pairs of hex digits"),
    (b"<zz>\n", "\"z\" may not stand here; bytes are pairs of hex digits"),
    (b"1\n2\n", "\"2\" may not stand here; behind this value there may be blank lines alone"),
    (b"a: 1\n  b: 2\n", "a space may not stand here; the line may not be indented"),
    (b"- 1\n  - 2\n", "a space may not stand here; the line may not be indented"),
    (b"a:\n    b: 1\n", "a space may not stand here; the indentation may be 2 spaces"),
    (b"a:\n  b: 1\n c: 2\n", "\"c\" may not stand here; the indentation may be 0 or 2 spaces"),
    (b"a:\n  b:\n    c: 1\n   d: 2\n", "\"d\" may not stand here; the indentation may be 0, 2 or 4 spaces"),
    (b"a: 1 \n", "a line may not end in a space"),
    (b"# c \n1\n", "a line may not end in a space"),
    (b"a: `\n  text \n", "a line may not end in a space"),
    (b"- \n", "a line may not end in a space; an item's value stands behind \"- \""),
    (b"a: \xc2\x85\n", "U+0085 is valid UTF-8, but not allowed in a document; in double quotes write \\u{85}"),
    (b"a: \xe4h\n", "the byte 0xe4 may not stand here; a document is text in UTF-8"),
    (b"a:\xc2\xa01\n", "\"\\u{a0}\" may not stand here; it looks like a space, and is none"),
    (b"a: \xe3\x80\x801\n", "\"\\u{3000}\" may not stand here; it looks like a space, and is none"),
    (b"a: 1 # c\n", "\"#\" may not stand here; two spaces must stand before a comment"),
    (b"a: 1# c\n", "\"#\" may not stand here; two spaces must stand before a comment"),
    (b"a: 1   # c\n", "a space may not stand here; two spaces must stand before a comment"),
    (b"k: # c\n  j: 1\n", "\"#\" may not stand here; two spaces must stand before a comment"),
    (b"a: >  # c\n", "a space may not stand here; one space must stand before a comment behind \">\""),
    (b"1 # c\n", "\"#\" may not stand here; no comment may stand behind a value that is the whole document"),
    (b"[1]  # c\n", "a space may not stand here; no comment may stand behind a value that is the whole document"),
    (b"[ 1 ]\n", "a space may not stand here; no space may stand behind an opening bracket"),
    (b"{ a: 1 }\n", "a space may not stand here; no space may stand behind an opening bracket"),
    (b"[1 ]\n", "a space may not stand here; no space may stand before a closing bracket"),
    (b"<00 >\n", "\">\" may not stand here; no space may stand before a closing bracket"),
    (b"[1 , 2]\n", "a space may not stand here; no space may stand before \",\""),
    (b"a : 1\n", "a space may not stand here; no space may stand before \":\""),
    (b"1 : 2\n", "\":\" may not stand here; no space may stand before \":\""),
    (b"a:  1\n", "\"1\" may not stand here; one space alone must follow \":\""),
    (b"-  1\n", "a space may not stand here; one space alone must follow \"-\""),
    (b"[1,  2]\n", "a space may not stand here; one space alone must follow \",\""),
    (b"[1, 2,]\n", "\"]\" may not stand here; no \",\" may stand behind the last one"),
    (b"[1, ]\n", "\"]\" may not stand here; no \",\" may stand behind the last one"),
    (b"[1,2]\n", "\"2\" may not stand here; one space must follow \",\""),
    (b"a:1\n", "\"1\" may not stand here; a space must follow \":\""),
    (b"a:b\n", "\"b\" may not stand here; a space must follow \":\""),
    (b"- 1\n-2\n", "\"2\" may not stand here; a space must follow \"-\""),
    (b"a: \"x\n", "the line may not end here; the double quote opened at column 4 is not closed"),
    (b"\"abc \n", "the line may not end here; the double quote opened at column 1 is not closed"),
    (b"'a\\\n", "the line may not end here; the single quote opened at column 1 is not closed"),
    (b"['C:\\'\n", "the line may not end here; the single quote opened at column 2 is not closed"),
    (b"a: 'C:\\'\n", "the line may not end here; the single quote opened at column 4 is not closed; \\' stands for a quote, and a backslash at a string's end is \\\\"),
    (b"'C:\\img\\'\n", "the line may not end here; the single quote opened at column 1 is not closed; \\' stands for a quote, and a backslash at a string's end is \\\\"),
    (b"a: [1, 2\n", "the line may not end here; \"[\" opened at column 4 is not closed on this line"),
    (b"{\n  \"a\": 1\n}\n", "the line may not end here; \"{\" opened at column 1 is not closed on this line"),
    (b"\"\\x41\"\n", "\"x\" may not stand here; write \\u{41}"),
    (b"\"\\u0041\"\n", "\"0\" may not stand here; write \\u{0041}"),
    (b"\"\\u{D800}\"\n", "\"}\" may not stand here; \\u{…} holds 1 to 6 hex digits, up to 10FFFF and none of D800 to DFFF"),
    (b"\"\\u{}\"\n", "\"}\" may not stand here; \\u{…} holds 1 to 6 hex digits, up to 10FFFF and none of D800 to DFFF"),
    (b"\"C:\\img\"\n", "\"i\" may not stand here; behind a backslash stands one of \" \\ / b f n r t u, and a backslash itself is \\\\"),
    (b"[1, 2}\n", "\"}\" may not stand here; \"[\" opened at column 1 is closed by \"]\""),
    (b"a: 'it's'\n", "\"s\" may not stand here; the string that begins at column 4 ended before it"),
    (b"a: \xe2\x80\x9cx\xe2\x80\x9d\n", "\"“\" may not stand here; strings stand in \" or '"),
    (b"a: True\n", "\"T\" may not stand here; the keyword is written true"),
    (b"[TRUE, 1]\n", "\"T\" may not stand here; the keyword is written true"),
    (b"a: -Infinity\n", "\"I\" may not stand here; the keyword is written -infinity"),
    (b"Null\n", "the line may not end here; the keyword is written null"),
    (b"- NULL\n", "the line may not end here; the keyword is written null"),
    (b"a: |\n  text\n", "\"|\" may not stand here; a text of several lines begins with a grave (`)"),
    (b"a: `text\n", "\"t\" may not stand here; a property's text begins on the line below the grave (`)"),
    (b"a: > x\n", "\"x\" may not stand here; a property's bytes begin on the line below \">\""),
    (b"a: 1\n- 2\n", "a space may not stand here; no item may stand among properties"),
    (b"a: - 1\n", "a space may not stand here; items stand below their key, indented by two spaces"),
    (b"gr\xc3\xb6\xc3\x9fe: 1\n", "\"ö\" may not stand here; a key of more than letters, digits, \"_\" and \"-\" stands in quotes"),
    (b"{a b: 1}\n", "a space may not stand here; a key of more than letters, digits, \"_\" and \"-\" stands in quotes"),
    (b"a: 10.2.0\n", "\".\" may not stand here; this is no number, and text stands in quotes"),
    (b"a: 5 GB  # c\n", "\"G\" may not stand here; this is no number, and text stands in quotes"),
    (b"[1.2.3, 4]\n", "\".\" may not stand here; this is no number, and text stands in quotes"),
    (b"hello\n", "the line may not end here; text stands in quotes, and \":\" follows a key"),
    (b"- hello world\n", "a space may not stand here; text stands in quotes, and \":\" follows a key"),
    (b"a: hello\n", "\"h\" may not stand here; text stands in quotes"),
    (b"a: nulls\n", "\"s\" may not stand here; text stands in quotes"),
    (b"[hello, 1]\n", "\"h\" may not stand here; text stands in quotes"),
    (b"a: 1\nb 2\n", "a space may not stand here; \":\" must follow a key"),
    (b"a: 1\nb\n", "the line may not end here; \":\" must follow a key"),
    (b"a: \"x\" y\n", "\"y\" may not stand here"),
    (b"a: `\n  Call:\n)\n", "\")\" may not stand here"),
    (b"- 1\na: 2\n", "\"a\" may not stand here"),
    (b"<ab\n", "the line may not end here; \"<\" opened at column 1 is not closed on this line"),
    (b"[1 000]\n", "a space may not stand here; in brackets a number has no spaces, and \",\" and one space stand between two"),
    (b"{a: 1 0}\n", "a space may not stand here; in brackets a number has no spaces, and \",\" and one space stand between two"),
    (b"[\"a\" \"b\"]\n", "a space may not stand here; \",\" and one space must stand between two"),
    (b"{a: 1 b: 2}\n", "a space may not stand here; \",\" and one space must stand between two"),
    (b"{a: 1 e1}\n", "a space may not stand here; this is no number, and text stands in quotes"),
    (b"a: 1,\n", "\",\" may not stand here; no \",\" may end a property or an item"),
    (b"{a: }\n", "\"}\" may not stand here; the key before it has no value"),
    (b"[a: 1]\n", "\"a\" may not stand here; pairs stand in { and }"),
    (b"1.: 1\n", "\":\" may not stand here; a key of more than letters, digits, \"_\" and \"-\" stands in quotes"),
];

/// The row of the table that speaks, and what it says.
fn said(doc: &[u8]) -> (usize, String) {
    let refusal = Document::read(doc).expect_err("refused");
    let at = At::new(doc, refusal.place);
    let row = TABLE.iter().position(|row| row.number == refusal.number && (row.shows)(&at)).expect("a row");
    (row, refusal.sentence(doc))
}

#[test]
fn each_document_has_its_sentence() {
    for (doc, sentence) in CASES {
        assert_eq!(said(doc).1, *sentence, "{}", quoted(doc));
    }
}

#[test]
fn each_row_is_tried() {
    let tried: Vec<_> = CASES.iter().map(|(doc, _)| said(doc).0).collect();
    let untried: Vec<_> = (0..TABLE.len()).filter(|row| !tried.contains(row)).map(|row| TABLE[row].says).collect();
    assert!(untried.is_empty(), "{untried:#?}");
}

#[test]
fn each_name_can_be_filled() {
    for row in TABLE {
        for part in row.says.split('$').skip(1) {
            let name: String = part.chars().take_while(char::is_ascii_lowercase).collect();
            assert!(NAMES.iter().any(|(known, _)| *known == name), "{}", row.says);
        }
    }
}

/// What looks like a mistake inside a text, a comment or a string is none.
#[test]
fn texts_and_comments_give_no_hint() {
    for (doc, sentence) in [
        (&b"a: `\n  k:\n)\n"[..], "\")\" may not stand here"),
        (b"a: `\n  k:\n  \"x\"\n)\n", "\")\" may not stand here"),
        (b"# [\"\n)\n", "\")\" may not stand here"),
        (b"a: 1  # it's [\n)\n", "\")\" may not stand here"),
        (b"a: `\n  it's [", "the last line does not end in a line end"),
        (b"a: `\n  k:", "the last line does not end in a line end"),
        (b"a: \"# \" )\n", "\")\" may not stand here"),
        (b"a: \"\\\\\" )\n", "\")\" may not stand here"),
    ] {
        assert_eq!(said(doc).1, sentence, "{}", quoted(doc));
    }
}

/// Cut, doubled and changed anywhere, a document is accepted or has a sentence with every name filled.
#[test]
fn every_refusal_has_a_sentence() {
    let doc =
        "# c\na: [1, {b: \"\\u{41}ö\"}]\nd:\n  - e: >\n      00 ff  # c\n    f: `\n      t\n\n  - - 'x'\ng: -1.5e3\n";
    let mut refused = 0;
    for at in 0..doc.len() {
        for byte in b" \n\t\"'[]{}<>:,-#`|\\Aa0\xe4" {
            let changed = [&doc.as_bytes()[..at], &[*byte], &doc.as_bytes()[at + 1..]].concat();
            let cut = [&doc.as_bytes()[..at], &[*byte]].concat();
            for doc in [changed, cut] {
                let Err(refusal) = Document::read(&doc) else { continue };
                let sentence = refusal.sentence(&doc);
                assert!(!sentence.is_empty() && !sentence.contains('$'), "{}", quoted(&doc));
                refused += 1;
            }
        }
    }
    assert!(refused > 3000, "{refused}");
}

/// A refusal may be asked of a document that it is not of, and answers something.
#[test]
fn another_document_is_no_fault() {
    for (doc, _) in CASES.iter().take(90) {
        let refusal = Document::read(doc).expect_err("refused");
        for other in [&b""[..], b"a", b"\n\n", b"a: \"\xc3"] {
            assert!(!refusal.sentence(other).is_empty());
        }
    }
}

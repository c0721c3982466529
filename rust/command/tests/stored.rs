//! `yay store` and `yay load`, stored forms in the other commands, and what is said of bytes that are none.

mod common;
use common::{example, status_unread, yay, yay_bytes, Temporary};
use std::fs;

const DOC: &[u8] = b"# Lost.\nname: \"A\"\ndoors: [1, {a: 22}]\n";
const FORM: &[u8] =
    b"\x09\0\x26\x0a\0\x04name\x06\0\x01A\x0a\0\x05doors\x08\0\x10\x04\0\x011\x09\0\x09\x0a\0\x01a\x04\0\x0222";

#[test]
fn what_is_stored() {
    for words in [&["store", "-"][..], &["store", "-o", "-", "-"], &["store", "--output=-", "--", "-"]] {
        assert_eq!(yay_bytes(words, DOC), FORM, "{words:?}");
    }
    let file = Temporary::new("stored.out", b"old");
    let run = yay(&["store", "-", "-o", file.name()], DOC);
    assert_eq!((run.status, run.out.as_str(), run.err.as_str()), (0, "", ""));
    assert_eq!(fs::read(file.name()).unwrap(), FORM);
    let run = yay(&["store", "-", "-o", file.name()], b"a: 1 \n");
    assert_eq!((run.status, run.out.as_str()), (1, ""));
    assert_eq!(fs::read(file.name()).unwrap(), FORM, "a refusal leaves it");
    assert_eq!(status_unread(&["store", "-"], DOC), 0, "nobody reads it");
}

#[test]
fn the_outline() {
    let outline = "object of 2 pairs\n  name: string \"A\"\n  doors: array of 2 elements\n    0: integer 1\n    1: object of 1 pair\n      a: integer 22\n";
    for words in [&["load", "-"][..], &["show", "--stored", "-"]] {
        let run = yay(words, FORM);
        assert_eq!((run.status, run.out.as_str(), run.err.as_str()), (0, outline, ""), "{words:?}");
    }
    let places = "0   object of 2 pairs\n10    name: string \"A\"\n22    doors: array of 2 elements\n25      0: integer 1\n29      1: object of 1 pair\n36        a: integer 22\n";
    assert_eq!(yay(&["load", "-p", "-"], FORM).out, places);
    assert_eq!(yay(&["show", "--places", "--stored", "-"], FORM).out, places);
}

/// What each command says of a document it says of its stored form.
#[test]
fn in_the_other_commands() {
    for name in ["fleet.yay", "tablet.yay", "scanner.yay", "gate.yay", "dock.yay"] {
        let (document, form) = (example(name), yay_bytes(&["store", &example(name)], b""));
        for words in [&["json"][..], &["json", "-c", "--numbers=text"], &["write"], &["get"], &["get", "--json"]] {
            let read = yay(&[words, &[&document]].concat(), b"");
            let loaded = yay(&[words, &["--stored", "-"]].concat(), &form);
            assert_eq!((loaded.status, loaded.out, loaded.err), (0, read.out, read.err), "{name} {words:?}");
        }
        let run = yay(&["check", "--stored", "-", "-q"], &form);
        assert_eq!((run.status, run.out.as_str(), run.err.as_str()), (0, "", ""));
        // Back to the document, and to the same bytes.
        let back = yay_bytes(&["write", "--stored", "-"], &form);
        assert_eq!(yay_bytes(&["store", "-"], &back), form, "{name}");
    }
    assert_eq!(yay(&["check", "--stored", "-"], FORM).out, "(standard input): ok, 9 rows, 14 bytes of text\n");
    let rows = yay(&["rows", "--stored", "-"], FORM).out;
    assert!(
        rows.ends_with("    8      4     36     41     12     14      6      9      0      0  integer 22\n"),
        "{rows}"
    );
    let run = yay(&["get", "--stored", "-", "doors", "9"], FORM);
    assert_eq!((run.status, run.out.as_str()), (3, ""));
}

#[test]
fn decided_and_laid_over() {
    let stored = |name: &str| Temporary::new(&format!("{name}.stored"), &yay_bytes(&["store", &example(name)], b""));
    let [sheet, installed] = ["release.yay", "installed.yay"].map(stored);
    let run = yay(&["decide", "--stored", sheet.name(), installed.name()], b"");
    assert_eq!((run.status, run.out.starts_with("install: ")), (0, true), "{}", run.err);
    assert_eq!(yay(&["decide", "--stored", sheet.name(), "--installed=[11]"], b"").status, 4);
    let run = yay(&["decide", "--stored", sheet.name(), sheet.name()], b"");
    let said = "byte 0: BADINST (15): an installed version is an array, and this is an object\n";
    assert_eq!((run.status, run.err), (1, format!("{}: {said}", sheet.name())));
    let [fleet, region, site] = ["all-tablets.yay", "north.yay", "cold-store.yay"].map(stored);
    let laid = yay(&["overlay", "--stored", fleet.name(), region.name(), site.name()], b"");
    let files = ["all-tablets.yay", "north.yay", "cold-store.yay"].map(example);
    assert_eq!(laid.out, yay(&["overlay", &files[0], &files[1], &files[2]], b"").out);
    let clash = yay(&["overlay", "--stored", region.name(), "-"], &yay_bytes(&["store", "-"], b"battery: 1\n"));
    let said = format!("the key \"battery\" is an integer here, and an object in {}: byte 3\n", region.name());
    assert_eq!((clash.status, clash.err), (1, format!("(standard input): byte 3: CLASH (16): {said}")));
    let no = yay(&["overlay", "--stored", "-", site.name()], b"\x08\0\0");
    assert_eq!(
        no.err,
        "(standard input): byte 0: BADROW (9): profiles laid over each other are objects, and this is an array\n"
    );
}

#[test]
fn what_is_no_stored_form() {
    let no = "BADFORM (13): this is no stored form";
    for (bytes, said) in [
        (&b""[..], "byte 0: BADFORM (13): this is no stored form: a value is missing\n"),
        (&FORM[..20], "byte 0: BADFORM (13): this is no stored form: this field says that its content has 38 bytes, and there are 17\n"),
        (b"\x08\0\x03\x0b\0\0", "byte 3: BADFORM (13): this is no stored form: a part, which has the tag 11, has 65535 bytes, and this has 0\n"),
        (b"\x01\0\0\n", "byte 3: BADFORM (13): this is no stored form: a stored form is one field, and bytes stand behind it\n"),
    ] {
        for words in [&["load", "-"][..], &["json", "--stored", "-"], &["check", "--stored", "-"], &["write", "--stored", "-"]] {
            let run = yay(words, bytes);
            assert_eq!((run.status, run.out.as_str()), (1, ""), "{words:?}");
            assert_eq!(run.err, format!("(standard input): {said}"), "{words:?}");
        }
    }
    let run = yay(&["load", "-"], DOC);
    assert!(run.status == 1 && run.err.contains(no), "{}", run.err);
    assert!(
        run.err.ends_with("yay: this is a document, which show shows, and which is read without --stored\n"),
        "{}",
        run.err
    );
    let run = yay(&["show", "-"], FORM);
    assert!(
        run.status == 1 && run.err.ends_with("yay: this is a stored form, which load shows, and --stored reads\n"),
        "{}",
        run.err
    );
    let long = Temporary::new("long.stored", &vec![8; 16_777_300]);
    let run = yay(&["load", long.name()], b"");
    assert!(run.err.contains("the most that a stored form has; the file has 16777300"), "{}", run.err);
}

/// No message of a stored form has a line.
#[test]
fn no_line_of_a_stored_form() {
    for at in 0..FORM.len() {
        let mut bytes = FORM.to_vec();
        bytes[at] ^= 0x80;
        for words in
            [&["load", "-"][..], &["decide", "--stored", "-", "--installed=[1]"], &["get", "--stored", "-", "x"]]
        {
            let run = yay(words, &bytes);
            assert!(run.status != 0 && !run.err.contains("0:0") && !run.err.contains(" | "), "{words:?} {}", run.err);
        }
    }
}

#[test]
fn wrong_words() {
    for words in [
        &["store"][..],
        &["store", "-", "-"],
        &["store", "--stored", "-"],
        &["load"],
        &["load", "--stored", "-"],
        &["fmt", "--stored", "-"],
        &["batch", "--stored"],
        &["store", "no-such-file", "-o", "-"],
        &["load", "no-such-file"],
    ] {
        let run = yay(words, FORM);
        assert_eq!((run.status, run.out.as_str()), (2, ""), "{words:?}: {}", run.err);
    }
}

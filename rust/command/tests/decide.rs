//! `yay decide`: the word, the reason and the exit status; sheets and installed versions that are none.

mod common;
use common::{example, status_unread, yay, Temporary};

const SHEET: &str =
    "version: [10]\nfloor: [9, 5]\nimage: <9f86d081884c7d659a2feaa0c55ad015a3bf4f1b2b0b822cd15d6c15b0f00a08>\n";

/// Standard output, for a sheet on standard input, and the exit status.
fn decided(sheet: &str, installed: &str) -> (String, i32) {
    let run = yay(&["decide", "-", "--installed", installed], sheet.as_bytes());
    assert_eq!(run.err, "", "{installed}");
    (run.out, run.status)
}

/// The first line on standard error; nothing is written to standard output.
fn refused(sheet: &str, installed: &str) -> String {
    let run = yay(&["decide", "-", "--installed", installed], sheet.as_bytes());
    assert_eq!((run.status, run.out.as_str()), (1, ""), "{installed}");
    run.err.lines().next().unwrap_or_default().to_owned()
}

#[test]
fn a_word_the_reason_and_the_status() {
    for (installed, said, status) in [
        ("[9, 5]", "install: version [10] is above the installed [9, 5], which is not below the floor [9, 5]\n", 0),
        ("[9, 10]", "install: version [10] is above the installed [9, 10], which is not below the floor [9, 5]\n", 0),
        ("[10]", "keep: version [10] is not above the installed [10]\n", 4),
        ("[010, 0]", "keep: version [10] is not above the installed [10, 0]\n", 4),
        ("[100]", "keep: version [10] is not above the installed [100]\n", 4),
        ("[9, 4]", "blocked: version [10] is above the installed [9, 4], but that is below the floor [9, 5]\n", 5),
        ("[9]", "blocked: version [10] is above the installed [9], but that is below the floor [9, 5]\n", 5),
    ] {
        assert_eq!(decided(SHEET, installed), (said.into(), status));
    }
}

#[test]
fn the_examples() {
    let (sheet, installed) = (example("release.yay"), example("installed.yay"));
    let said = "install: version [10, 2, 0] is above the installed [9, 4, 1], which is not below the floor [9]\n";
    for words in [
        &["decide", &sheet, &installed][..],
        &["decide", "--", &sheet, &installed],
        &["decide", &sheet, "--installed=[9, 4, 1]"],
        &["decide", "--installed", "- 9\n- 4\n- 1\n", &sheet],
    ] {
        let run = yay(words, b"");
        assert_eq!((run.status, run.out.as_str(), run.err.as_str()), (0, said, ""), "{words:?}");
    }
    let run = yay(&["decide", &sheet, "-"], b"- 9\n- 4\n- 1\n");
    assert_eq!((run.status, run.out.as_str()), (0, said));
}

#[test]
fn long_numbers_are_cut_in_the_sentence() {
    let long = "7".repeat(1_000);
    let (out, status) = decided(&SHEET.replace("[10]", &format!("[{long}8]")), &format!("[{long}7]"));
    let shown = "[77777777777777777777… (1001 digits)]";
    let said =
        format!("install: version {shown} is above the installed {shown}, which is not below the floor [9, 5]\n");
    assert_eq!((out, status), (said, 0));
}

#[test]
fn what_is_wrong_is_said() {
    let sheet = |from: &str, to: &str| refused(&SHEET.replace(from, to), "[9]");
    let only = "a sheet has the keys version, floor and image, and no other";
    assert_eq!(
        sheet("floor: [9, 5]\n", ""),
        format!("(standard input):1:1: BADSHEET (14): the key floor is missing; {only}")
    );
    assert_eq!(
        sheet("floor", "door: 17\nfloor"),
        format!("(standard input):2:1: BADSHEET (14): the key \"door\" is too much; {only}")
    );
    assert_eq!(
        sheet("[10]", "[10, -2]"),
        "(standard input):1:15: BADSHEET (14): each place of version is not below zero, and this is"
    );
    assert_eq!(sheet("9f86", "9f"), "(standard input):3:8: BADSHEET (14): image has 32 bytes, and this has 31");
    assert_eq!(
        sheet("[9, 5]", "\"9.5\""),
        "(standard input):2:8: BADSHEET (14): floor is an array, and this is a string"
    );
    assert_eq!(
        refused("[]\n", "[9]"),
        "(standard input):1:1: BADSHEET (14): a sheet is an object, and this is an array"
    );
    for sheet in [SHEET, "[]\n"] {
        assert_eq!(
            refused(sheet, "[]"),
            "--installed:1:1: BADINST (15): an installed version has 1 to 8 places, and this has 0"
        );
        assert_eq!(
            refused(sheet, "9"),
            "--installed:1:1: BADINST (15): an installed version is an array, and this is an integer"
        );
    }
    let run = yay(&["decide", "-", "--installed=[9, 1.5]"], SHEET.as_bytes());
    let said =
        "--installed:1:5: BADINST (15): each place of an installed version is an integer, and this is a float\n    \
                1 | [9, 1.5]\n      |     ^\n";
    assert_eq!((run.status, run.err.as_str()), (1, said));
}

#[test]
fn documents_that_are_refused() {
    assert!(refused("version: [1,2]\n", "[9]").starts_with("(standard input):1:13: SYNTAX (3): "));
    assert!(refused(SHEET, "[9").starts_with("--installed:1:3: SYNTAX (3): "));
    assert!(refused(SHEET, "").starts_with("--installed:1:1: SYNTAX (3): "));
    let run = yay(&["decide", "-", "--installed", "[1,2]"], b"version: [1,2]\n");
    assert_eq!((run.status, run.err.matches("SYNTAX (3)").count()), (1, 2), "both are shown");
}

#[test]
fn files_and_words() {
    let sheet = Temporary::new("decide.yay", SHEET.as_bytes());
    for (words, said) in [
        (&["decide"][..], "decide needs a sheet and an installed version"),
        (&["decide", "a"], "decide needs a sheet and an installed version"),
        (&["decide", "a", "b", "c"], "decide needs a sheet and an installed version"),
        (&["decide", "a", "b", "--installed=[1]"], "decide takes INSTALLED or --installed, not both"),
        (&["decide", "-", "-"], "decide takes standard input for one of the two"),
        (&["decide", "a", "--installed"], "decide needs a value behind --installed"),
    ] {
        let run = yay(words, b"");
        assert_eq!((run.status, run.out.as_str()), (2, ""), "{words:?}");
        assert_eq!(run.err, format!("yay: {said}; 'yay decide --help' tells more\n"));
    }
    for words in [["decide", sheet.name(), "/nonexistent"], ["decide", "/nonexistent", sheet.name()]] {
        let run = yay(&words, b"");
        assert_eq!((run.status, run.out.as_str()), (2, ""));
        assert_eq!(run.err, "yay: /nonexistent: there is no such file\n");
    }
}

/// Where nobody reads the sentence, the status is still the decision; 0 is install alone.
#[test]
fn a_closed_pipe_changes_no_decision() {
    for (installed, status) in [("[9, 5]", 0), ("[10]", 4), ("[9, 4]", 5), ("[]", 1)] {
        assert_eq!(status_unread(&["decide", "-", "--installed", installed], SHEET.as_bytes()), status, "{installed}");
    }
    let places = vec!["7".repeat(40); 8].join(", ");
    let long = SHEET.replace("[10]", &format!("[{places}]"));
    assert_eq!(status_unread(&["decide", "-", "--installed", &format!("[{places}]")], long.as_bytes()), 4);
}

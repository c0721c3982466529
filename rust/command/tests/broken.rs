//! Each command on broken, empty, binary and too long files, on what is no file, and on wrong words.

mod common;
use common::{status_unread, yay, Temporary};

const READING: [&str; 7] = ["check", "show", "rows", "get", "json", "write", "fmt"];

/// Each command that reads a file gives this status and writes nothing but this to standard error.
fn all_say(file: &str, status: i32, said: &str) {
    for command in READING {
        let run = yay(&[command, file], b"");
        let err = run.err.replace(file, "F");
        assert_eq!((run.status, run.out.as_str()), (status, ""), "{command}");
        assert!(err.starts_with(said), "{command}: {err}");
        assert!(!err.contains('\x1b'), "{command}");
    }
}

#[test]
fn a_broken_file() {
    let file = Temporary::new("broken.yay", b"a: 1\nversion: [1,2]\n");
    let said =
        "F:2:13: SYNTAX (3): \"2\" may not stand here; one space must follow \",\"\n    2 | version: [1,2]\n      \
                |             ^\n";
    all_say(file.name(), 1, said);
}

#[test]
fn an_empty_file() {
    let file = Temporary::new("empty.yay", b"");
    all_say(file.name(), 1, "F:1:1: END (5): the document is empty\n    1 |\n      | ^\n");
}

#[test]
fn a_binary_file() {
    let file = Temporary::new("binary", b"\x7fELF\x02\x01\x01\x00\x1b[31m");
    let said = "F:1:1: CHAR (2): the control byte 0x7f may stand nowhere in a document\n    1 | \\u{7f}ELF";
    all_say(file.name(), 1, said);
}

#[test]
fn a_file_of_33_kilobytes() {
    let file = Temporary::new("long.yay", &[b'1'; 1_050_000]);
    all_say(
        file.name(),
        1,
        "F:1:1: LONG (1): there are more than 1048576 bytes, the most that a document has; the file has 1050000\n",
    );
    let run = yay(&["check", "-"], &[b'1'; 1_050_000]);
    let said = "(standard input):1:1: LONG (1): there are more than 1048576 bytes, the most that a document has\n";
    assert_eq!((run.status, run.err.as_str()), (1, said));
}

#[test]
fn what_is_no_file() {
    all_say("/nonexistent/file.yay", 2, "yay: F: there is no such file\n");
    let folder = std::env::temp_dir();
    all_say(folder.to_str().unwrap(), 2, "yay: F: this is a directory, not a file\n");
}

#[test]
fn a_repeated_key_shows_both() {
    let run = yay(&["check", "-"], b"a:\n  b: 1\n  c: 2\n  'b': 3\n");
    let said =
        "(standard input):4:3: REPEAT (6): the key \"b\" stands in its object already, at 2:3\n    2 |   b: 1\n      \
                |   ^ first\n    4 |   'b': 3\n      |   ^ again\n";
    assert_eq!((run.status, run.err.as_str()), (1, said));
}

#[test]
fn many_files_and_the_worst_status() {
    let (good, bad) = (Temporary::new("good.yay", b"1\n"), Temporary::new("bad.yay", b"1"));
    let run = yay(&["check", good.name(), bad.name(), good.name()], b"");
    assert_eq!((run.status, run.out.lines().count()), (1, 3));
    assert_eq!(run.out.lines().last(), Some("2 ok, 1 refused"));
    let run = yay(&["check", bad.name(), "/nonexistent", good.name()], b"");
    assert_eq!((run.status, run.out.lines().count()), (2, 2));
    assert_eq!(run.out.lines().last(), Some("1 ok, 1 refused, 1 not read"));
    assert!(run.err.contains("END (5)") && run.err.ends_with("no such file\n"));
    let run = yay(&["check", bad.name()], b"");
    assert_eq!((run.status, run.out.as_str()), (1, ""));
}

#[test]
fn quiet_says_refusals_alone() {
    let (good, bad) = (Temporary::new("quiet-good.yay", b"1\n"), Temporary::new("quiet-bad.yay", b"1"));
    for quiet in ["-q", "--quiet"] {
        let run = yay(&["check", good.name(), bad.name(), quiet, good.name()], b"");
        assert_eq!((run.status, run.out.as_str(), run.err.lines().count()), (1, "", 3));
    }
    let run = yay(&["check", "-q", good.name(), good.name()], b"");
    assert_eq!((run.status, run.out.as_str(), run.err.as_str()), (0, "", ""));
}

#[test]
fn a_closed_pipe_loses_no_refusal() {
    let (good, bad) = (Temporary::new("pipe-good.yay", b"1\n"), Temporary::new("pipe-bad.yay", b"1"));
    assert_eq!(status_unread(&["check", "-", good.name()], b"1\n"), 0);
    assert_eq!(status_unread(&["check", "-", bad.name(), good.name()], b"1\n"), 1);
    assert_eq!(status_unread(&["check", "-", good.name(), bad.name()], b"1\n"), 1);
    assert_eq!(status_unread(&["check", "-", good.name()], b"1"), 1);
    assert_eq!(status_unread(&["check", "-", good.name(), "/nonexistent"], b"1\n"), 2);
    assert_eq!(status_unread(&["show", "-"], b"1\n"), 0);
    assert_eq!(status_unread(&["show", "-"], b"1"), 1);
    assert_eq!(status_unread(&["get", "-", "nope"], b"a: 1\n"), 3);
}

#[test]
fn wrong_words() {
    for words in [&[][..], &["nope"], &["-x"], &["--nope", "check"], &["help", "nope"]] {
        let run = yay(words, b"");
        assert_eq!((run.status, run.out.as_str()), (2, ""), "{words:?}");
        assert!(run.err.starts_with("yay: ") && run.err.ends_with("; 'yay --help' lists the commands\n"), "{words:?}");
    }
    for words in [&["check"][..], &["show"], &["show", "a", "b"], &["get"], &["compare", "1"], &["batch", "x"]] {
        let run = yay(words, b"");
        assert_eq!((run.status, run.out.as_str()), (2, ""), "{words:?}");
        let more = format!("; 'yay {} --help' tells more\n", words[0]);
        assert!(run.err.starts_with(&format!("yay: {} ", words[0])) && run.err.ends_with(&more), "{words:?}");
    }
}

#[test]
fn an_unknown_option_is_named_and_never_a_file() {
    for command in [
        "check", "show", "rows", "get", "json", "write", "fmt", "decide", "overlay", "store", "load", "compare",
        "batch",
    ] {
        for option in ["-x", "--nope", "--nope=1", "-qx"] {
            let run = yay(&[command, option, "-"], b"1\n");
            let name = option.split('=').next().unwrap();
            let said = format!("yay: {command} has no option \"{name}\"; 'yay {command} --help' tells more\n");
            assert_eq!((run.status, run.out.as_str(), run.err), (2, "", said));
        }
        let run = yay(&[command, "--", "-x"], b"");
        assert!(!run.err.contains("option"), "{command}: {}", run.err);
    }
    let run = yay(&["check", "--", "-x"], b"");
    assert_eq!((run.status, run.err.as_str()), (2, "yay: -x: there is no such file\n"));
    let run = yay(&["get", "-", "--", "-k"], b"-k: 1\n");
    assert_eq!((run.status, run.out.as_str()), (0, "1\n"));
}

#[test]
fn names_are_shown_without_escape_codes() {
    let run = yay(&["check", "no\x1b[31m"], b"");
    assert_eq!(run.err.lines().next(), Some("yay: no\\u{1b}[31m: there is no such file"));
}

//! Each command on good documents.

mod common;
use common::{example, yay, yay_bytes};

fn good(words: &[&str], input: &[u8]) -> String {
    let run = yay(words, input);
    assert_eq!((run.status, run.err.as_str()), (0, ""), "{words:?}");
    run.out
}

#[test]
fn check_says_ok() {
    assert_eq!(good(&["check", "-"], b"[1, 22]\n"), "(standard input): ok, 3 rows, 3 bytes of text\n");
    assert_eq!(good(&["check", "-q", "-"], b"1\n"), "");
}

#[test]
fn check_and_show_say_a_word_of_escapes() {
    for (doc, rows, shown, said) in [
        (&b"\"a\\n\\u{41}\"\n"[..], "1 rows, 3 bytes of text", "string \"a\\nA\"", ", 2 escapes"),
        (b"{\"\\t\": 'x'}\n", "3 rows, 2 bytes of text", "object of 1 pair", ", 1 escape"),
        (b"k:\n  \"\\n\"\n  'x'\n  '\\'\\\\'\n", "3 rows, 5 bytes of text", "object of 1 pair", ", 3 escapes"),
        (b"- 'C:\\img'\n", "2 rows, 6 bytes of text", "array of 1 element", ""),
        (b"` \\n\n", "1 rows, 3 bytes of text", "string \"\\\\n\\n\"", ""),
    ] {
        assert_eq!(good(&["check", "-"], doc), format!("(standard input): ok, {rows}{said}\n"));
        assert_eq!(good(&["show", "-"], doc).lines().next(), Some(format!("{shown}{said}").as_str()));
    }
    assert_eq!(good(&["check", "-q", "-"], b"\"\\n\"\n"), "");
    let forklift = example("forklift.yay");
    let out = good(&["check", &forklift], b"");
    assert!(out.ends_with(" bytes of text, 5 escapes\n"), "{out}");
    assert!(good(&["show", &forklift], b"").starts_with("object of 8 pairs, 5 escapes\n"));
    assert_eq!(good(&["json", "-c", "-"], b"\"a\\n\\u{41}\"\n"), "\"a\\nA\"\n");
}

#[test]
fn every_example_is_good() {
    let folder = std::fs::read_dir(example("")).expect("examples/");
    let files: Vec<_> = folder.map(|entry| entry.expect("listed").path().to_str().unwrap().to_owned()).collect();
    assert!(files.len() >= 5);
    let words: Vec<_> = ["check"].into_iter().chain(files.iter().map(String::as_str)).collect();
    let out = good(&words, b"");
    assert_eq!(out.lines().last(), Some(format!("{} ok, 0 refused", files.len()).as_str()));
    let named: Vec<_> = out.lines().map_while(|line| line.split_once(": ok, ").map(|(file, _)| file)).collect();
    assert_eq!(named, files);
}

#[test]
fn show_is_an_outline() {
    let out = good(&["show", "-"], b"a: 1\n\"b c\":\n  - {d: <00ff>}\n  - \"x\\ny\"\ne: []\n");
    let wanted = [
        "object of 3 pairs, 1 escape",
        "  a: integer 1",
        "  \"b c\": array of 2 elements",
        "    0: object of 1 pair",
        "      d: bytes <00ff>",
        "    1: string \"x\\ny\"",
        "  e: array of 0 elements",
    ];
    assert_eq!(out.lines().collect::<Vec<_>>(), wanted);
}

#[test]
fn rows_are_their_words() {
    let out = good(&["rows", "-"], b"[1, 22]\n");
    let lines: Vec<_> = out.lines().map(|line| line.split_whitespace().collect::<Vec<_>>().join(" ")).collect();
    assert_eq!(lines[0], format!("row {}", yay::NAMES.join(" ")));
    let rows = ["0 8 0 7 0 2 0 3 1 1 array", "1 4 1 2 0 1 0 2 1 2 integer 1", "2 4 4 6 1 3 0 3 1 5 integer 22"];
    assert_eq!(lines[1..], rows);
}

#[test]
fn show_places_are_asked_for() {
    let doc = "# é\n\"é\": [1, {a: \"\\n\"}]\nb:\n  - 2\n".as_bytes();
    let wanted = [
        "2:1   object of 2 pairs, 1 escape",
        "2:6     \"é\": array of 2 elements",
        "2:7       0: integer 1",
        "2:10      1: object of 1 pair",
        "2:14        a: string \"\\n\"",
        "4:3     b: array of 1 element",
        "4:5       0: integer 2",
    ];
    assert_eq!(good(&["show", "--places", "-"], doc).lines().collect::<Vec<_>>(), wanted);
    assert_eq!(good(&["show", "-", "-p"], doc), good(&["show", "--places", "-"], doc));
    assert_eq!(good(&["show", "-p", "-"], b"1\n"), "1:1  integer 1\n");
    assert!(good(&["show", "-"], doc).starts_with("object of 2 pairs"));
}

#[test]
fn get_follows_keys_and_numbers() {
    let tablet = example("tablet.yay");
    for (keys, value) in [
        (&["image-channel"][..], "stable\n"),
        (&["battery", "capacity"], "10400\n"),
        (&["version", "1"], "2\n"),
        (&["aisles", "0", "doors", "2"], "3\n"),
        (&["notes"], "Scan guns pair at start.\n  They take a minute.\n\n"),
        (&["floor"], "[\n  9\n]\n"),
        (&["image"], "9f86d081884c7d659a2feaa0c55ad015a3bf4f1b2b0b822cd15d6c15b0f00a08\n"),
    ] {
        let words: Vec<_> = ["get", &tablet].into_iter().chain(keys.iter().copied()).collect();
        assert_eq!(good(&words, b""), value, "{keys:?}");
    }
    assert_eq!(good(&["get", "-"], b"null\n"), "null\n");
}

#[test]
fn windows_paths_stay_as_they_are() {
    let forklift = example("forklift.yay");
    for (keys, value) in [
        (&["image-folder"][..], "C:\\img\n"),
        (&["folders", "maps"], "D:\\Halle 3\\Größe XL\n"),
        (&["folders", "log"], "D:\\log\\\n"),
        (&["folders", "share"], "\\\\store-7\\images\n"),
        (&["registry", "HKLM\\Software\\Terminal\\Beeps"], "false\n"),
        (&["start"], "C:\\Program Files\\Terminal\\start.exe --operator 'night shift'\n"),
    ] {
        let words: Vec<_> = ["get", &forklift].into_iter().chain(keys.iter().copied()).collect();
        assert_eq!(good(&words, b""), value, "{keys:?}");
    }
    assert_eq!(good(&["get", "-j", &forklift, "image-folder"], b""), "\"C:\\\\img\"\n");
}

#[test]
fn get_writes_forms_for_scripts() {
    let doc = b"a: <00ff0a>\nb: \"x\\n\"\nc: [1.50, {d: null}]\n";
    assert_eq!(good(&["get", "--raw", "-", "b"], doc), "x\n");
    assert_eq!(good(&["get", "-r", "-", "c", "0"], doc), "1.50");
    assert_eq!(good(&["get", "--raw", "-", "c", "1", "d"], doc), "null");
    assert_eq!(good(&["get", "--json", "-", "b"], doc), "\"x\\n\"\n");
    assert_eq!(good(&["get", "--json", "-", "a"], doc), "{\"$bytes\": \"00ff0a\"}\n");
    assert_eq!(good(&["get", "-c", "-", "c"], doc), "[1.50,{\"d\":null}]\n");
    assert_eq!(good(&["get", "-c", "--numbers=text", "-", "c"], doc), "[\"1.50\",{\"d\":null}]\n");
    assert_eq!(yay_bytes(&["get", "--raw", "-", "a"], doc), [0, 255, 10]);
    let run = yay(&["get", "--raw", "-", "c"], doc);
    assert_eq!((run.status, run.out.as_str()), (2, ""));
    assert!(run.err.starts_with("yay: get --raw takes a value with a text, and this is an array"), "{}", run.err);
}

#[test]
fn get_says_what_is_missing() {
    let tablet = example("tablet.yay");
    for (keys, said) in [
        (&["nope"][..], "yay: NONE (10): the document has no key \"nope\"; it is an object of 7 pairs\n"),
        (&["version", "3"], "yay: \"version\" has no element \"3\"; it is an array of 3 elements, from 0\n"),
        (&["version", "+1"], "yay: \"version\" has no element \"+1\"; it is an array of 3 elements, from 0\n"),
        (&["floor", "x"], "yay: \"floor\" has no element \"x\"; it is an array of 1 element, from 0\n"),
        (&["image-channel", "x"], "yay: \"image-channel\" has no \"x\"; it is no object or array but of kind string\n"),
    ] {
        let words: Vec<_> = ["get", &tablet].into_iter().chain(keys.iter().copied()).collect();
        let run = yay(&words, b"");
        assert_eq!((run.status, run.out.as_str(), run.err.as_str()), (3, "", said));
        let with: Vec<_> = ["get", "--default=none, yet", &tablet].into_iter().chain(keys.iter().copied()).collect();
        assert_eq!(good(&with, b""), "none, yet\n");
    }
    assert_eq!(good(&["get", "-d", "x", &tablet, "battery", "capacity"], b""), "10400\n");
    assert_eq!(good(&["get", "--raw", "-d", "x", &tablet, "nope"], b""), "x");
    let run = yay(&["get", "--default=x", "-", "a"], b"a: 1 \n");
    assert_eq!((run.status, run.out.as_str()), (1, ""), "a refused document has no default");
}

#[test]
fn json_of_an_example() {
    let out = good(&["json", &example("tablet.yay")], b"");
    assert!(out.starts_with("{\n  \"image-channel\": \"stable\",\n  \"version\": [\n    10,\n"), "{out}");
    assert!(out.contains("\"low-at\": 0.15,\n"));
}

#[test]
fn json_as_scripts_ask() {
    let doc = b"[1, 18446744073709551617, <00>]\n";
    assert_eq!(good(&["json", "-c", "-"], doc), "[1,18446744073709551617,{\"$bytes\":\"00\"}]\n");
    assert_eq!(good(&["json", "--compact", "-", "--numbers=json"], doc), good(&["json", "-c", "-"], doc));
    assert_eq!(
        good(&["json", "-c", "-", "--numbers=text"], doc),
        "[\"1\",\"18446744073709551617\",{\"$bytes\":\"00\"}]\n"
    );
    assert_eq!(
        good(&["json", "-c", "--numbers", "exact", "-"], doc),
        "[1,\"18446744073709551617\",{\"$bytes\":\"00\"}]\n"
    );
    let run = yay(&["json", "--numbers=all", "-"], doc);
    assert_eq!((run.status, run.out.as_str()), (2, ""));
    assert!(run.err.starts_with("yay: json takes json, text or exact behind --numbers"), "{}", run.err);
}

#[test]
fn compare_orders_integers() {
    assert_eq!(good(&["compare", "10", "9"], b""), "1\n");
    assert_eq!(good(&["compare", "-10", "9"], b""), "-1\n");
    assert_eq!(good(&["compare", "0", "0"], b""), "0\n");
    let run = yay(&["compare", "1", "01"], b"");
    assert_eq!((run.status, run.err.as_str()), (1, "yay: NOTINT (11): \"01\" is no integer's text\n"));
}

#[test]
fn help_and_version() {
    let help = good(&["--help"], b"");
    for command in [
        "check", "show", "rows", "get", "json", "write", "fmt", "decide", "overlay", "store", "load", "compare",
        "batch",
    ] {
        assert!(help.contains(&format!("yay {command}")), "{command}");
    }
    assert_eq!(good(&["help"], b""), help);
    assert_eq!(good(&["-h"], b""), help);
    assert_eq!(good(&["--version"], b""), concat!("yay ", env!("CARGO_PKG_VERSION"), "\n"));
}

#[test]
fn each_command_has_its_page() {
    for command in [
        "check", "show", "rows", "get", "json", "write", "fmt", "decide", "overlay", "store", "load", "compare",
        "batch",
    ] {
        let page = good(&[command, "--help"], b"");
        assert!(page.starts_with(&format!("yay {command}")) && page.contains("\n  -h, --help"), "{page}");
        assert_eq!(good(&[command, "-h"], b""), page);
        assert_eq!(good(&[command, "x", "--help", "y"], b""), page);
        assert_eq!(good(&["help", command], b""), page);
    }
    let page = good(&["get", "-h"], b"");
    for option in ["-r, --raw", "-j, --json", "-c, --compact", "--numbers=HOW", "-d, --default=TEXT"] {
        assert!(page.contains(option), "{option}");
    }
    assert!(good(&["check", "-h"], b"").contains("-q, --quiet"));
    assert!(good(&["show", "-h"], b"").contains("-p, --places"));
    assert!(good(&["write", "-h"], b"").contains("-o, --output=OUT"));
    assert!(good(&["fmt", "-h"], b"").contains("--check"));
    assert!(good(&["decide", "-h"], b"").contains("--installed=ARRAY"));
}

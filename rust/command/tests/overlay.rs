//! `yay overlay`: what it writes and where, clashes in the files that hold them, and files that are no profiles.

mod common;
use common::{example, status_unread, yay, Run, Temporary};
use std::fs;
use std::sync::atomic::{AtomicUsize, Ordering::Relaxed};

/// Profiles of these texts laid over each other, as files `0`, `1`, ...
fn run(texts: &[&str]) -> (Run, Vec<Temporary>) {
    static RUNS: AtomicUsize = AtomicUsize::new(0);
    let run = RUNS.fetch_add(1, Relaxed);
    let name = |i: usize| format!("overlay-{run}-{i}.yay");
    let files: Vec<_> = texts.iter().enumerate().map(|(i, text)| Temporary::new(&name(i), text.as_bytes())).collect();
    let words: Vec<_> = ["overlay"].into_iter().chain(files.iter().map(Temporary::name)).collect();
    (yay(&words, b""), files)
}

#[test]
fn two_and_more() {
    for (texts, result) in [
        (&["a: 1  # lost\n", "a: 2\n"][..], "a: 2\n"),
        (&["{a: 1, b: {c: 2}}\n", "{d: [], b: {e: {}}}\n"], "a: 1\nb:\n  c: 2\n  e: {}\nd: []\n"),
        (
            &["{a: 1}\n", "{b: 2, a: [1]}\n", "{c: 3, b: null}\n", "{a: [2, [3]]}\n"],
            "a:\n  - 2\n  - [3]\nb: null\nc: 3\n",
        ),
        (&["{}\n", "{}\n", "{}\n"], "{}\n"),
    ] {
        let run = run(texts).0;
        assert_eq!((run.status, run.out.as_str(), run.err.as_str()), (0, result, ""), "{texts:?}");
    }
}

#[test]
fn the_examples() {
    let files = ["all-tablets.yay", "north.yay", "cold-store.yay"].map(example);
    let [fleet, region, site] = files.each_ref().map(String::as_str);
    let all = yay(&["overlay", fleet, region, site], b"");
    assert_eq!((all.status, all.err.as_str()), (0, ""));
    assert!(all.out.starts_with("image-channel: \"beta\"\nversion:\n"), "{}", all.out);
    assert!(all.out.ends_with("  door: \"blue\"\nlanguage: \"no\"\nsite: \"Cold store 7\"\n"), "{}", all.out);
    assert_eq!(yay(&["overlay", "--", fleet, region, site], b"").out, all.out);
}

/// Three profiles in both groupings: the lower two first, and the upper two first.
fn grouped(files: [&str; 3]) -> [Run; 2] {
    let [fleet, region, site] = files;
    let [lower, upper] = [[fleet, region], [region, site]].map(|[low, up]| yay(&["overlay", low, up], b""));
    let first = |run: Run, rest: &dyn Fn(&str) -> Run| match run.status {
        0 => rest(Temporary::new("overlay-grouped.yay", run.out.as_bytes()).name()),
        _ => run,
    };
    [first(lower, &|two| yay(&["overlay", two, site], b"")), first(upper, &|two| yay(&["overlay", fleet, two], b""))]
}

#[test]
fn grouped_both_ways() {
    let files = ["all-tablets.yay", "north.yay", "cold-store.yay"].map(example);
    let files = files.each_ref().map(String::as_str);
    let all = yay(&["overlay", files[0], files[1], files[2]], b"");
    for run in grouped(files) {
        assert_eq!((run.status, &run.out, run.err.as_str()), (0, &all.out, ""));
    }
    // Both groupings clash, the one at its first step and the other at its second.
    let files = run(&["battery: {}\n", "battery: 1\n", "site: 7\n"]).1;
    for run in grouped([0, 1, 2].map(|i| files[i].name())) {
        assert_eq!((run.status, run.out.as_str()), (1, ""));
        assert!(run.err.contains("CLASH (16)"), "{}", run.err);
    }
}

#[test]
fn what_changes_nothing() {
    let fleet = example("all-tablets.yay");
    let itself = yay(&["write", &fleet], b"").out;
    for files in [[fleet.as_str(), "-"], ["-", fleet.as_str()]] {
        assert_eq!(yay(&["overlay", files[0], files[1]], b"{}\n").out, itself);
    }
    assert_eq!(yay(&["overlay", &fleet, &fleet], b"").out, itself);
}

#[test]
fn a_clash_is_shown_in_both_files() {
    let (run, files) = run(&["a: 1\nb:\n  c: {}\n", "# Site\nb: {a: 2, \"c\": [1]}\n"]);
    let [lower, upper] = [files[0].name(), files[1].name()];
    let said = format!(
        "{upper}:2:11: CLASH (16): the key \"b\" \"c\" is an array here, and an object in {lower}:3:3\n    \
         3 |   c: {{}}\n      |   ^ an object, in {lower}\n    \
         2 | b: {{a: 2, \"c\": [1]}}\n      |           ^ an array, in {upper}\n"
    );
    assert_eq!((run.status, run.out.as_str(), run.err), (1, "", said));
}

/// The file and line of each key, of the first clash.
fn clash(texts: &[&str]) -> [(usize, String); 2] {
    let (run, files) = run(texts);
    assert_eq!((run.status, run.out.as_str()), (1, ""), "{texts:?}");
    let line = run.err.lines().next().unwrap_or_default().to_owned();
    let (upper, lower) = (line.split(": CLASH").next().unwrap(), line.rsplit(" in ").next().unwrap());
    [lower, upper].map(|place| {
        let found = files.iter().position(|file| place.starts_with(file.name())).expect("a file");
        (found, place[files[found].name().len() + 1..].to_owned())
    })
}

#[test]
fn of_many_files_those_that_hold_the_values() {
    for (texts, lower, upper) in [
        (&["a: 1\n", "b: 2\n", "# C\na: {}\n"][..], (0, "1:1"), (2, "2:1")),
        (&["a: 1\n", "b: 2\na: 3\n", "c: 1\n", "a: {}\n"], (1, "2:1"), (3, "1:1")),
        (&["b: 2\n", "{}\n", "a: {c: 1}\n", "b: 1\n", "a: null\n"], (2, "1:1"), (4, "1:1")),
        (&["a:\n  b:\n    c: 1\n", "a: {d: 1}\n", "a: {b: {e: 1}}\n", "a: {b: {c: {}}}\n"], (0, "3:5"), (3, "1:9")),
        // An object has pairs of several files; the last that has the key is named.
        (&["a: {b: 1}\n", "z: 1\na: {c: 1}\n", "a: \"x\"\n", "a: {}\n"], (1, "2:1"), (2, "1:1")),
    ] {
        assert_eq!(clash(texts), [(lower.0, lower.1.to_owned()), (upper.0, upper.1.to_owned())], "{texts:?}");
    }
}

#[test]
fn files_that_are_no_profiles() {
    let (run, files) = run(&["a: {}\n", "# Doors\n[1]\n", "a: 1\n"]);
    let said = format!(
        "{}:2:1: BADROW (9): profiles laid over each other are objects, and this is an array\n    \
         2 | [1]\n      | ^\n",
        files[1].name()
    );
    assert_eq!((run.status, run.out.as_str(), run.err), (1, "", said));
    let refused = yay(&["overlay", &example("north.yay"), "-"], b"a: 1\na: 2\n");
    assert_eq!((refused.status, refused.err.contains("REPEAT (6)")), (1, true));
    let missing = yay(&["overlay", &example("north.yay"), "/none/such.yay"], b"");
    assert_eq!((missing.status, missing.err.as_str()), (2, "yay: /none/such.yay: there is no such file\n"));
}

#[test]
fn into_a_file_whole_or_not_at_all() {
    let (one, other) = (Temporary::new("overlay-o1.yay", b"{a: 1}\n"), Temporary::new("overlay-o2.yay", b"{b: 2}\n"));
    let out = Temporary::new("overlay-out.yay", b"old");
    for words in [&["-o", out.name()][..], &["--output", out.name()]] {
        fs::write(&out.0, "old").unwrap();
        let words: Vec<_> = ["overlay", one.name(), other.name()].into_iter().chain(words.iter().copied()).collect();
        let run = yay(&words, b"");
        assert_eq!((run.status, run.out.as_str(), run.err.as_str()), (0, "", ""));
        assert_eq!(fs::read(&out.0).unwrap(), b"a: 1\nb: 2\n");
    }
    // One of the files themselves.
    assert_eq!(yay(&["overlay", one.name(), other.name(), "-o", one.name()], b"").status, 0);
    assert_eq!(fs::read(&one.0).unwrap(), b"a: 1\nb: 2\n");
    // What is refused leaves it.
    fs::write(&other.0, "a: {}\n").unwrap();
    assert_eq!(yay(&["overlay", one.name(), other.name(), "-o", one.name()], b"").status, 1);
    assert_eq!(fs::read(&one.0).unwrap(), b"a: 1\nb: 2\n");
    let nowhere = yay(&["overlay", one.name(), one.name(), "-o", "/none/such/folder.yay"], b"");
    assert_eq!((nowhere.status, nowhere.out.as_str()), (2, ""));
    assert_eq!(yay(&["overlay", one.name(), one.name(), "-o", "-"], b"").out, "a: 1\nb: 2\n");
}

#[test]
fn what_is_too_long_to_write() {
    let keys = |letter: char| (0..60_000).map(|i| format!("{letter}{i}: 1\n")).collect::<String>();
    let (run, files) = run(&[&keys('k'), &keys('l')]);
    let said = format!(
        "yay: all laid over {}: LONG (1): written back, the document has more than 1048576 bytes\n",
        files[0].name()
    );
    assert_eq!((run.status, run.out.as_str(), run.err), (1, "", said));
}

#[test]
fn words_that_make_no_overlay() {
    let north = example("north.yay");
    for (words, said) in [
        (&["overlay"][..], "overlay needs a profile and one or more that are laid over it"),
        (&["overlay", &north], "overlay needs a profile and one or more that are laid over it"),
        (&["overlay", "-", "-"], "overlay takes standard input for one of the files"),
        (&["overlay", "-", &north, "-"], "overlay takes standard input for one of the files"),
        (&["overlay", &north, &north, "-o"], "overlay needs a value behind --output"),
        (&["overlay", &north, &north, "--check"], "overlay has no option \"--check\""),
    ] {
        let run = yay(words, b"a: 1\n");
        assert_eq!((run.status, run.out.as_str()), (2, ""), "{words:?}");
        assert_eq!(run.err, format!("yay: {said}; 'yay overlay --help' tells more\n"));
    }
}

#[test]
fn nobody_reads() {
    assert_eq!(status_unread(&["overlay", "-", &example("north.yay")], b"a: 1\n"), 0);
}

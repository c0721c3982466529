//! `yay write` and `yay fmt`: the house style, files written whole or not at all, and files that are not in it.

mod common;
use common::{example, yay, Temporary};
use std::fs;
use std::os::unix::fs::{symlink, PermissionsExt};
use std::path::{Path, PathBuf};

const DOC: &[u8] = b"# Lost.\n{doors: [1, [2, 3]], 'b c': {}}\n";
const HOUSE: &str = "doors:\n  - 1\n  - [2, 3]\n\"b c\": {}\n";

/// A folder of its own, gone when dropped.
struct Folder(PathBuf);

impl Folder {
    fn new(name: &str) -> Folder {
        let path = std::env::temp_dir().join(format!("yay-test-{}-{name}", std::process::id()));
        fs::create_dir(&path).expect("made");
        Folder(path)
    }

    fn file(&self, name: &str) -> String {
        self.0.join(name).to_str().expect("UTF-8").to_owned()
    }

    /// The names of all that is there.
    fn names(&self) -> Vec<String> {
        let entries = fs::read_dir(&self.0).expect("listed");
        let mut names: Vec<_> = entries.map(|entry| entry.unwrap().file_name().into_string().unwrap()).collect();
        names.sort();
        names
    }
}

impl Drop for Folder {
    fn drop(&mut self) {
        let _ = fs::remove_dir_all(&self.0);
    }
}

#[test]
fn to_standard_output() {
    for words in [&["write", "-"][..], &["fmt", "-"], &["write", "-o", "-", "-"], &["fmt", "--output=-", "-"]] {
        let run = yay(words, DOC);
        assert_eq!((run.status, run.out.as_str(), run.err.as_str()), (0, HOUSE, ""), "{words:?}");
    }
    let run = yay(&["write", "-"], HOUSE.as_bytes());
    assert_eq!((run.status, run.out.as_str()), (0, HOUSE));
}

#[test]
fn into_a_file() {
    let folder = Folder::new("into");
    let (one, two) = (folder.file("one.yay"), folder.file("two.yay"));
    for (words, file) in [(["write", "-", "-o", &one], &one), (["fmt", "--output", &two, "-"], &two)] {
        let run = yay(&words, DOC);
        assert_eq!((run.status, run.out.as_str(), run.err.as_str()), (0, "", ""));
        assert_eq!(fs::read_to_string(file).unwrap(), HOUSE);
    }
    assert_eq!(folder.names(), ["one.yay", "two.yay"], "nothing is left beside them");
}

#[test]
fn into_the_file_itself() {
    let folder = Folder::new("itself");
    let (file, link) = (folder.file("profile.yay"), folder.file("link.yay"));
    fs::write(&file, DOC).unwrap();
    fs::set_permissions(&file, fs::Permissions::from_mode(0o640)).unwrap();
    symlink("profile.yay", &link).unwrap();
    assert_eq!(yay(&["write", &link, "-o", &link], b"").status, 0);
    assert_eq!(fs::read_to_string(&file).unwrap(), HOUSE);
    assert_eq!(fs::metadata(&file).unwrap().permissions().mode() & 0o777, 0o640);
    assert!(fs::symlink_metadata(&link).unwrap().is_symlink());
    assert_eq!(folder.names(), ["link.yay", "profile.yay"]);
}

#[test]
fn a_refusal_leaves_the_file() {
    let folder = Folder::new("refused");
    let file = folder.file("kept.yay");
    fs::write(&file, "kept").unwrap();
    let long = format!("[{}1]\n", "1, ".repeat(300_000));
    for (doc, said) in [
        (&b"a: 1 \n"[..], "(standard input):1:6: SYNTAX (3): a line may not end in a space\n"),
        (long.as_bytes(), "yay: (standard input): LONG (1): written back, the document has more than 1048576 bytes\n"),
    ] {
        let run = yay(&["write", "-", "-o", &file], doc);
        assert_eq!((run.status, run.out.as_str()), (1, ""));
        assert!(run.err.starts_with(said), "{}", run.err);
        assert_eq!(fs::read_to_string(&file).unwrap(), "kept");
    }
    assert_eq!(folder.names(), ["kept.yay"]);
}

#[test]
fn outputs_that_cannot_be_written() {
    let folder = Folder::new("cannot");
    let (inside, here) = (folder.file("no/such.yay"), folder.file("."));
    for (out, said) in [(&inside, "No such file or directory"), (&here, "this is a directory, not a file")] {
        let run = yay(&["write", "-", "-o", out], DOC);
        assert_eq!((run.status, run.out.as_str()), (2, ""));
        assert!(run.err.starts_with(&format!("yay: {out}: {said}")), "{}", run.err);
    }
    assert!(folder.names().is_empty());
}

#[test]
fn what_is_no_file_is_written_to_and_stays() {
    assert_eq!(yay(&["write", "-", "-o", "/dev/null"], DOC).status, 0);
    assert!(!Path::new("/dev/null").is_file());
    let run = yay(&["write", "-", "-o", "/dev/full"], DOC);
    assert_eq!(run.status, 2, "{}", run.err);
}

#[test]
fn check_names_files_that_are_not_in_the_house_style() {
    let (good, other) = (Temporary::new("fmt-good.yay", HOUSE.as_bytes()), Temporary::new("fmt-other.yay", DOC));
    let broken = Temporary::new("fmt-broken.yay", b"1");
    let run = yay(&["fmt", "--check", good.name(), &example("dock.yay")], b"");
    assert_eq!((run.status, run.out.as_str(), run.err.as_str()), (0, "", ""));
    let run = yay(&["fmt", good.name(), other.name(), "--check", good.name(), other.name()], b"");
    assert_eq!((run.status, run.out, run.err.as_str()), (1, format!("{0}\n{0}\n", other.name()), ""));
    assert_eq!(fs::read(&other.0).unwrap(), DOC, "nothing is written");
    let run = yay(&["fmt", "--check", broken.name(), other.name()], b"");
    assert_eq!((run.status, run.out), (1, format!("{}\n", other.name())));
    assert!(run.err.contains("END (5)"), "{}", run.err);
    let run = yay(&["fmt", "--check", other.name(), "/nonexistent", broken.name()], b"");
    assert_eq!(run.status, 2);
    let run = yay(&["fmt", "--check", "-"], DOC);
    assert_eq!((run.status, run.out.as_str()), (1, "(standard input)\n"));
}

#[test]
fn wrong_words() {
    for (words, said) in [
        (&["write", "a", "b"][..], "write reads one file at a time"),
        (&["fmt", "a", "b"], "fmt writes one file at a time; --check takes more"),
        (&["fmt"], "fmt needs a file"),
        (&["fmt", "--check"], "fmt needs one or more files"),
        (&["fmt", "--check", "-o", "x", "-"], "fmt takes --check or --output, not both"),
        (&["write", "--check", "-"], "write has no option \"--check\""),
        (&["write", "-", "-o"], "write needs a value behind --output"),
    ] {
        let run = yay(words, b"1\n");
        assert_eq!((run.status, run.out.as_str()), (2, ""), "{words:?}");
        assert_eq!(run.err, format!("yay: {said}; 'yay {} --help' tells more\n", words[0]));
    }
}

//! Pairs of documents whose answers document 02 and its readings fix.

use super::{Pair, Source};
use crate::second::decide::{Decided, Decision, BADINST, BADSHEET};
use crate::second::{Second, MOST};
use crate::tables::Table;
use Decision::{Blocked, Install, Keep};

/// 32 bytes.
pub const IMAGE: &str = "<9f86d081884c7d659a2feaa0c55ad015a3bf4f1b2b0b822cd15d6c15b0f00a08>";

/// A version, a floor, what is installed, and the decision.
const DECISIONS: [(&str, &str, &str, Decision); 20] = [
    ("[10]", "[0]", "[9]", Install),
    ("[9]", "[0]", "[10]", Keep),
    ("[10]", "[0]", "[10, 0]", Keep),
    ("[10, 0]", "[0]", "[10]", Keep),
    ("[10]", "[9, 5]", "[9, 4]", Blocked),
    ("[10]", "[9, 5]", "[9, 5]", Install),
    ("[10]", "[9, 5]", "[9, 5, 0]", Install),
    ("[10]", "[9, 5, 0, 1]", "[9, 5]", Blocked),
    ("[10]", "[9, 10]", "[9, 9]", Blocked),
    // Kept before blocked, also below the floor.
    ("[9]", "[11]", "[10]", Keep),
    ("[10]", "[11]", "[10]", Keep),
    // A floor above its own version never installs.
    ("[10]", "[11]", "[9]", Blocked),
    ("[0]", "[0]", "[0, 0]", Keep),
    ("[0, 0, 0, 0, 0, 0, 0, 1]", "[0]", "[0]", Install),
    ("[1]", "[0, 0, 0, 0, 0, 0, 0, 1]", "[0]", Blocked),
    ("[010]", "[-0]", "[09]", Install),
    ("[1000]", "[0]", "- 9 99", Install),
    ("[18446744073709551616]", "[0]", "[18446744073709551615]", Install),
    ("[9007199254740993]", "[0]", "[9007199254740992]", Install),
    ("[1, 2, 3, 4, 5, 6, 7, 8]", "[1, 2, 3, 4, 5, 6, 7, 7]", "[1, 2, 3, 4, 5, 6, 7, 7]", Install),
];

/// Arrays that are no versions.
const NONE: [&str; 12] = [
    "[]",
    "[-1]",
    "[1, -2]",
    "[1, 2, 3, 4, 5, 6, 7, 8, 9]",
    "[1, 0, 0, 0, 0, 0, 0, 0, 0]",
    "[1.]",
    "[\"1\"]",
    "[[1]]",
    "[null]",
    "10",
    "\"10\"",
    "{a: 1}",
];

/// Sheets that are none, with a version that would be installed.
fn sheets() -> Vec<String> {
    let (version, floor, image) = ("version: [10]", "floor: [9]", format!("image: {IMAGE}"));
    let of = |parts: &[&str]| parts.join("\n") + "\n";
    let mut list = vec![
        of(&[version, floor]),
        of(&[version, &image]),
        of(&[floor, &image]),
        of(&[version, floor, &image, "image-channel: \"stable\""]),
        of(&[version, floor, "images: <00>", &image]),
        of(&["Version: [10]", floor, &image]),
        of(&["\"version\\u{0}\": [10]", floor, &image]),
        of(&[version, floor, &image.replace("9f", "")]),
        of(&[version, floor, &image.replace("9f", "9f00")]),
        of(&[version, floor, "image: <>"]),
        of(&[version, floor, "image: \"9f86d081884c7d659a2feaa0c55ad015\""]),
        format!("[[10], [9], {IMAGE}]\n"),
        format!("[{{version: [10], floor: [9], image: {IMAGE}}}]\n"),
        "{}\n".into(),
        "null\n".into(),
    ];
    for none in NONE {
        list.push(of(&[&format!("version: {none}"), floor, &image]));
        list.push(of(&[version, &format!("floor: {none}"), &image]));
    }
    list
}

fn table(doc: &str) -> Table {
    Second::new().given(doc.as_bytes()).unwrap_or_else(|no| panic!("{no:?}: {doc}")).into()
}

fn pair(sheet: &str, installed: &str, known: Decided) -> Pair {
    Pair { sheet: table(sheet), installed: table(installed), source: Source::Border, known: Some(known) }
}

pub fn borders() -> Vec<Pair> {
    let good = format!("version: [10]\nfloor: [9]\nimage: {IMAGE}\n");
    let mut list: Vec<_> = sheets().iter().map(|sheet| pair(sheet, "[9]\n", Err(BADSHEET))).collect();
    for (version, floor, installed, decision) in DECISIONS {
        let sheet = format!("image: {IMAGE}\nversion: {version}\n\"fl\\u{{6f}}or\": {floor}\n");
        list.push(pair(&sheet, &format!("{installed}\n"), Ok(decision)));
    }
    for none in NONE {
        list.push(pair(&good, &format!("{none}\n"), Err(BADINST)));
        list.push(pair("[]\n", &format!("{none}\n"), Err(BADINST)));
    }
    list.push(pair(&good, &good, Err(BADINST)));
    list.push(pair(&good, "- - 9\n", Err(BADINST)));
    list
}

/// An installed version of one number of so many digits.
fn long(digits: usize) -> Table {
    let words = vec![8, 0, 0, 0, 1, 0, 2, 0, 0, 4, 0, 0, 0, digits as u32, 0, 2, 0, 0];
    Table { words, rows: 2, text: vec![b'9'; digits], sound: Some(digits <= MOST) }
}

/// As many digits as a text room counts for, and one more.
pub fn large() -> impl Iterator<Item = Pair> {
    let good = table(&format!("version: [10]\nfloor: [9]\nimage: {IMAGE}\n"));
    [(MOST, Ok(Keep)), (MOST + 1, Err(BADINST))].into_iter().map(move |(digits, known)| Pair {
        sheet: good.clone(),
        installed: long(digits),
        source: Source::Border,
        known: Some(known),
    })
}

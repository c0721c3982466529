//! Documents of one shape and about a given size, for figures of speed.

use super::{pieces, Rng};

/// A shape's name and how a document of about so many bytes is made.
type Shape = (&'static str, fn(&mut Rng, usize) -> String);

pub const SHAPES: [Shape; 12] = [
    ("flat object of short keys", flat_short),
    ("flat object of mixed values", flat_mixed),
    ("array of small records", records),
    ("nested tree", tree),
    ("inline integer array", inline_integers),
    ("floats", floats),
    ("long ASCII strings", ascii),
    ("non-ASCII strings", non_ascii),
    ("single-quoted Windows paths", windows_paths),
    ("block strings", block_strings),
    ("block bytes", block_bytes),
    ("realistic profile", profile),
];

/// Writes pieces until the next would pass `size`.
fn fill(size: usize, mut piece: impl FnMut(usize) -> String) -> String {
    let mut doc = String::new();
    for i in 0.. {
        let next = piece(i);
        if doc.len() + next.len() > size {
            break;
        }
        doc.push_str(&next);
    }
    doc
}

fn flat_short(rng: &mut Rng, size: usize) -> String {
    fill(size, |i| format!("k{i}: {}\n", rng.below(100)))
}

fn flat_mixed(rng: &mut Rng, size: usize) -> String {
    fill(size, |i| match i % 6 {
        0 => format!("name_{i}: \"value {i}\"\n"),
        1 => format!("count_{i}: {}\n", rng.below(1_000_000)),
        2 => format!("ratio_{i}: {}.{}\n", rng.below(100), rng.below(1000)),
        3 => format!("flag_{i}: {}\n", rng.pick(&["true", "false", "null"])),
        4 => format!("list_{i}: [{}, {}, {}]\n", rng.below(10), rng.below(10), rng.below(10)),
        _ => format!("mark_{i}: <{:04x} {:04x}>  # a mark\n", rng.below(65536), rng.below(65536)),
    })
}

fn records(rng: &mut Rng, size: usize) -> String {
    fill(size, |i| {
        let state = rng.pick(&["true", "false"]);
        format!("- id: {i}\n  name: \"item {i}\"\n  size: {}\n  on: {state}\n", rng.below(1000))
    })
}

fn tree(rng: &mut Rng, size: usize) -> String {
    fill(size, |i| {
        let value = rng.below(1000);
        format!(
            "branch{i}:\n  left:\n    - {value}\n    - - 1\n    - a: 2\n      b:\n        c: [1, 2]\n  right:\n    up: null\n    down:\n      x: {{y: {value}}}\n"
        )
    })
}

fn inline_integers(rng: &mut Rng, size: usize) -> String {
    let list = fill(size - 16, |_| format!("{}, ", rng.below(100_000)));
    format!("[{}]\n", list.trim_end_matches(", "))
}

fn floats(rng: &mut Rng, size: usize) -> String {
    fill(size, |_| format!("- {}.{}e{}\n", rng.below(1000), rng.below(100_000_000), rng.below(300)))
}

fn ascii(rng: &mut Rng, size: usize) -> String {
    fill(size, |i| {
        let word = rng.pick(&["pallet", "corner", "forklift", "gangway"]);
        format!("- \"line {i} {}\"\n", format!("{word} and more ").repeat(12))
    })
}

fn non_ascii(rng: &mut Rng, size: usize) -> String {
    fill(size, |_| {
        let word = rng.pick(&["größe ", "日本語の文字列 ", "Ελληνικά ", "😀 emoji ", "кириллица "]);
        format!("- \"{}\"\n", word.repeat(6))
    })
}

fn windows_paths(rng: &mut Rng, size: usize) -> String {
    fill(size, |i| {
        let folder = rng.pick(&["img", "Program Files", "Users\\Lager", "Größe"]);
        format!("- 'C:\\{folder}\\halle {}\\image-{i}.bin'\n", rng.below(20))
    })
}

fn block_strings(rng: &mut Rng, size: usize) -> String {
    fill(size, |i| {
        let word = rng.pick(&["first", "second"]);
        format!("text{i}: `\n  {word} line of the text\n    indented line with more of it\n\n  last line, and so on\n")
    })
}

fn block_bytes(rng: &mut Rng, size: usize) -> String {
    fill(size, |i| {
        let mut line = || (0..16).map(|_| format!("{:02x}", rng.below(256))).collect::<Vec<_>>();
        let (one, two) = (line().join(" "), line().concat());
        format!("blob{i}: >\n  {one}\n  {two}  # half\n  {one}\n")
    })
}

/// What a warehouse's tablet is given: settings, zones and messages.
fn profile(rng: &mut Rng, size: usize) -> String {
    let head = "# tablet profile\nversion: 3\nsite: \"Nord\"\nzones:\n";
    let zones = fill(size - head.len(), |i| {
        let key = pieces::digits(rng, false);
        format!(
            "  - name: \"zone {i}\"\n    shelf: {i}\n    limits: {{low: -5, high: {}}}\n    \"Größe\": 12.5  # metres\n    token: <{:08x}>\n    serial: {key}\n    note: `\n      Mind the step.\n      Call 2{i} for help.\n    roles:\n      - picker\n",
            rng.below(100),
            rng.below(1 << 31),
        )
        .replace("- picker", "- \"picker\"")
    });
    format!("{head}{zones}")
}

//! Tables at the borders that document 02 and its readings draw, each known to be sound or not.

use super::trees::{self, Node};
use super::Table;
use crate::documents::Rng;
use crate::second::{MOST, WORDS};

fn leaf(kind: u32, text: &[u8]) -> Node {
    Node::Leaf(kind, text.to_vec())
}

/// Leaves by kind and text.
fn leaves() -> Vec<(Node, bool)> {
    let mut list = Vec::new();
    for (kind, good, bad) in [
        (4, &["0", "-1", "10", "123456789012345678901234567890"][..], &["", "-", "-0", "00", "+1", "01", "1 0"][..]),
        (
            5,
            &["1.", ".5e+3", "-.5", "-0.", "00.50", "nan", "infinity", "-infinity", "0e0", "-1e-5"],
            &["1", "-0", ".", "1e", "1E5", "-nan", "", "e5", "1.5.", "+1.5", "1e5.", "1 .5", "NaN"],
        ),
        (6, &["", "\0", "\u{7f}", "\u{fdd0}", "\u{ffff}", "\u{10ffff}", "\"\\/'\u{8}\u{c}\n\r\t"], &[]),
        (10, &[], &["k"]),
        (0, &[], &[""]),
        (11, &[], &[""]),
    ] {
        list.extend(good.iter().map(|text| (leaf(kind, text.as_bytes()), true)));
        list.extend(bad.iter().map(|text| (leaf(kind, text.as_bytes()), false)));
    }
    let broken: [&[u8]; 7] =
        [b"\x80", b"a\xff", b"\xc0\x80", b"\xed\xa0\x80", b"\xf4\x90\x80\x80", b"\xe6\x97", b"\xf0\x8f\xbf\xbf"];
    list.extend(broken.iter().map(|text| (leaf(6, text), false)));
    list.extend(broken.iter().map(|text| (leaf(7, text), true)));
    list
}

/// Containers around `node`, arrays or objects.
fn nested(levels: usize, array: bool, node: Node) -> Node {
    (0..levels).fold(node, |node, _| if array { Node::Array(vec![node]) } else { object(&["k"], node) })
}

/// An object in which each key but the last has null.
fn object(keys: &[&str], last: Node) -> Node {
    let mut pairs: Vec<_> = keys.iter().map(|key| (key.as_bytes().to_vec(), leaf(1, b""))).collect();
    pairs.last_mut().expect("a key").1 = last;
    Node::Object(pairs)
}

fn containers() -> Vec<(Node, bool)> {
    let empty = || Node::Array(Vec::new());
    let mut list = vec![
        (empty(), true),
        (Node::Object(Vec::new()), true),
        (object(&["", "a", "b"], empty()), true),
        (object(&["", "a", ""], empty()), false),
        (object(&["a"], object(&["a"], empty())), true),
        (object(&["a b", "-", "null", "10", "\u{e9}", "a.b"], leaf(4, b"1")), true),
        (Node::Array(vec![leaf(1, b""), leaf(10, b"k"), leaf(1, b"")]), false),
    ];
    for array in [true, false] {
        list.push((nested(31, array, empty()), true));
        list.push((nested(32, array, leaf(1, b"")), true));
        list.push((nested(32, array, empty()), false));
        list.push((nested(33, array, leaf(1, b"")), false));
    }
    list
}

/// All small borders.
pub fn borders() -> Vec<Table> {
    let mut rng = Rng::new(1);
    let nodes = leaves().into_iter().chain(containers());
    let mut list: Vec<_> = nodes.map(|(node, sound)| trees::table(&mut rng, &node, sound)).collect();
    let null = trees::table(&mut rng, &leaf(1, b""), true);
    let of = |rows, words: usize, sound| Table { rows, words: null.words[..words].to_vec(), text: vec![], sound };
    list.push(of(0, 0, Some(false)));
    list.push(of(0, WORDS, Some(false)));
    list.push(of(1, WORDS - 1, Some(false)));
    list.push(of(2, WORDS, Some(false)));
    // A product of rows and words that wraps to a few words.
    list.push(of(usize::MAX / WORDS + 2, WORDS, Some(false)));
    list
}

/// A string of so many bytes, in a room that is one byte longer.
fn long_text(bytes: usize) -> Table {
    let words = vec![6, 0, 0, 0, bytes as u32, 0, 1, 0, 0];
    Table { words, rows: 1, text: vec![b'a'; bytes + 1], sound: Some(bytes <= MOST) }
}

/// An array of nulls of so many rows, in a table that is one row longer.
fn many_rows(rows: usize) -> Table {
    let mut words = vec![0; (rows + 1) * WORDS];
    for (row, words) in words.as_chunks_mut().0.iter_mut().enumerate() {
        *words = [1, 0, 0, 0, 0, 0, row as u32 + 1, 0, 0];
    }
    words[..WORDS].copy_from_slice(&[8, 0, 0, 0, rows as u32 - 1, 0, rows as u32, 0, 0]);
    Table { words, rows, text: Vec::new(), sound: Some(rows <= MOST) }
}

/// The borders of 16,777,216 text bytes and rows, one at a time since each takes up to 600 MB.
pub fn large() -> impl Iterator<Item = Table> {
    (0..2).map(|more| long_text(MOST + more)).chain((0..2).map(|more| many_rows(MOST + more)))
}

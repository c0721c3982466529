//! Pairs of documents whose answers document 02 and its readings fix, and pairs at the most that rooms count for.

use super::{laid, Pair, Source};
use crate::second::overlay::{Laid, CLASH};
use crate::second::questions::BADROW;
use crate::second::{Second, MOST, WORDS};
use crate::tables::trees::{plain, Node};
use crate::tables::Table;

/// A document, one laid over it, and the document that has the result.
const GIVEN: [(&str, &str, &str); 26] = [
    ("{}", "{}", "{}"),
    ("{a: 1}", "{}", "{a: 1}"),
    ("{}", "{a: 1}", "{a: 1}"),
    ("{a: 1}", "{a: 2}", "{a: 2}"),
    ("{a: 1}", "{a: \"x\"}", "{a: \"x\"}"),
    ("{a: null}", "{a: 1}", "{a: 1}"),
    ("{a: 1}", "{a: null}", "{a: null}"),
    ("{a: true}", "{a: <00>}", "{a: <00>}"),
    // The lower's order, then the upper's new keys in its own.
    ("{a: 1, b: 2}", "{b: 3, a: 4}", "{a: 4, b: 3}"),
    ("{a: 1, b: 2}", "{d: 5, b: 3, c: 4}", "{a: 1, b: 3, d: 5, c: 4}"),
    ("{b: 1}", "{a: 1}", "{b: 1, a: 1}"),
    // Arrays are others, and what is in them is never looked into.
    ("{a: [1, 2]}", "{a: [3]}", "{a: [3]}"),
    ("{a: [1, 2]}", "{a: []}", "{a: []}"),
    ("{a: [{b: 1}]}", "{a: [{c: 2}]}", "{a: [{c: 2}]}"),
    ("{a: [{b: 1}]}", "{a: [{b: {}}]}", "{a: [{b: {}}]}"),
    ("{a: [1]}", "{a: 1}", "{a: 1}"),
    ("{a: 1}", "{a: [{}]}", "{a: [{}]}"),
    // Objects are laid over each other in the same way.
    ("{a: {}}", "{a: {}}", "{a: {}}"),
    ("{a: {b: 1}}", "{a: {}}", "{a: {b: 1}}"),
    ("{a: {}}", "{a: {b: 1}}", "{a: {b: 1}}"),
    ("{a: {b: 1, c: 2}, z: 9}", "{y: 8, a: {d: 4, c: 3}}", "{a: {b: 1, c: 3, d: 4}, z: 9, y: 8}"),
    ("{a: {b: {c: {d: 1}}}}", "{a: {b: {c: {d: 2, e: 3}}}}", "{a: {b: {c: {d: 2, e: 3}}}}"),
    ("{a: {b: 1}}", "{b: {a: 2}}", "{a: {b: 1}, b: {a: 2}}"),
    // Keys are compared decoded, byte by byte.
    ("{\"\\u{61}\": 1}", "{a: 2}", "{a: 2}"),
    ("{\"\": 1, 'A': 2, ao: 5}", "{a: 3, \"\": 4, bm: 6}", "{\"\": 4, A: 2, ao: 5, a: 3, bm: 6}"),
    ("{a: \"\", b: \"xy\"}", "{b: \"\", c: \"z\"}", "{a: \"\", b: \"\", c: \"z\"}"),
];

/// Pairs that clash.
const CLASHES: [(&str, &str); 14] = [
    ("{a: {}}", "{a: null}"),
    ("{a: null}", "{a: {}}"),
    ("{a: {}}", "{a: 1}"),
    ("{a: 1}", "{a: {}}"),
    ("{a: {}}", "{a: []}"),
    ("{a: []}", "{a: {}}"),
    ("{a: {b: 1}}", "{a: [{b: 1}]}"),
    ("{a: \"{}\"}", "{a: {b: 1}}"),
    ("{a: {b: 1}}", "{a: \"\"}"),
    ("{a: {b: {}}}", "{a: {b: 1.}}"),
    ("{a: {b: 1}}", "{z: 1, a: {c: 2, b: {}}}"),
    ("{a: 1, b: {}}", "{b: 1, a: 2}"),
    ("{a: {b: {c: {d: 1}}}}", "{a: {b: {c: {d: {e: 1}}}}}"),
    ("{\"\\u{61}\": {}}", "{a: <>}"),
];

/// Roots, at least one of which is no object.
const ROOTS: [(&str, &str); 8] = [
    ("[]", "{}"),
    ("{}", "[]"),
    ("null", "{a: 1}"),
    ("{a: 1}", "1"),
    ("\"a\"", "<00>"),
    ("[{a: 1}]", "[{a: 2}]"),
    ("{a: {}}", "[1]"),
    ("[]", "[]"),
];

fn table(doc: &str) -> Table {
    Second::new().given(format!("{doc}\n").as_bytes()).unwrap_or_else(|no| panic!("{no:?}: {doc}")).into()
}

fn pair(lower: &str, upper: &str, known: Result<Laid, u32>) -> Pair {
    Pair { lower: table(lower), upper: Some(table(upper)), source: Source::Border, known: Some(known) }
}

/// What a document gives as a result.
fn result(doc: &str) -> Laid {
    let mut laid = laid(table(doc));
    for row in laid.words.chunks_mut(WORDS) {
        [1, 2, 7, 8].into_iter().for_each(|word| row[word] = 0);
    }
    laid
}

/// Two tables that clash, of which one is not sound.
fn unsound_and_clash(lower: bool) -> Pair {
    let mut pair = pair("{a: {}, b: 10}", "{b: 10, a: 1}", Err(BADROW));
    let damaged = if lower { &mut pair.lower } else { pair.upper.as_mut().expect("an upper one") };
    let digit = damaged.text.iter().position(|byte| *byte == b'1').expect("10");
    damaged.text[digit] = b'0';
    damaged.sound = Some(false);
    pair
}

/// A value inside of so many objects of one key.
fn below(objects: usize, value: &str) -> String {
    format!("{}{value}{}", "{k: ".repeat(objects), "}".repeat(objects))
}

pub fn borders() -> Vec<Pair> {
    let mut list: Vec<_> = GIVEN.iter().map(|(lower, upper, given)| pair(lower, upper, Ok(result(given)))).collect();
    list.extend(CLASHES.iter().map(|(lower, upper)| pair(lower, upper, Err(CLASH))));
    list.extend(ROOTS.iter().map(|(lower, upper)| pair(lower, upper, Err(BADROW))));
    list.extend([true, false].map(unsound_and_clash));
    for objects in [30, 31] {
        let [one, other, both] = ["{a: 1}", "{b: 2}", "{a: 1, b: 2}"].map(|value| below(objects, value));
        list.push(pair(&one, &other, Ok(result(&both))));
        list.push(pair(&one, &below(objects, "[]"), Err(CLASH)));
        list.push(pair(&one, &below(objects - 2, "null"), Err(CLASH)));
    }
    list
}

/// An object of numbered keys, all with one value.
fn numbered(order: impl Iterator<Item = usize>, value: &str) -> Node {
    let pair = |i: usize| (format!("key{i}").into_bytes(), Node::Leaf(6, value.into()));
    Node::Object(order.map(pair).collect())
}

fn of(lower: &Node, upper: &Node, known: &Node) -> Pair {
    let known = Some(Ok(laid(plain(known, true))));
    Pair { lower: plain(lower, true), upper: Some(plain(upper, true)), source: Source::Border, known }
}

/// Thousands of keys over as many, in the same order, reversed and half of them others, at the root and below it.
pub fn many(count: usize) -> Vec<Pair> {
    let (lower, all) = (numbered(0..count, "l"), numbered(0..count, "u"));
    let half = numbered(count / 2..count / 2 + count, "u");
    let joined = Node::Object([&pairs(&lower)[..count / 2], pairs(&half)].concat());
    let below = |node: &Node| Node::Object(vec![(b"k".to_vec(), node.clone()), (b"l".to_vec(), node.clone())]);
    vec![
        of(&lower, &all, &all),
        of(&lower, &numbered((0..count).rev(), "u"), &all),
        of(&lower, &half, &joined),
        of(&below(&lower), &below(&half), &below(&joined)),
    ]
}

fn pairs(node: &Node) -> &[(Vec<u8>, Node)] {
    match node {
        Node::Object(pairs) => pairs,
        _ => &[],
    }
}

/// Two strings that have, with their keys, so many bytes of text.
pub fn texts(bytes: usize) -> Pair {
    let one = bytes / 2 - 1;
    let node = |key: &[u8], length: usize| Node::Object(vec![(key.to_vec(), Node::Leaf(6, vec![b's'; length]))]);
    let (lower, upper) = (node(b"a", one), node(b"b", bytes - 2 - one));
    of(&lower, &upper, &Node::Object([pairs(&lower), pairs(&upper)].concat()))
}

/// The words of `{a: [null, null, ..]}` of so many nulls, and how many rows that is. With the text `b` it has another key.
pub fn nulls(count: usize) -> (Vec<u32>, usize) {
    let rows = count + 3;
    let mut words = vec![9, 0, 0, 0, 1, 0, rows as u32, 0, 0, 10, 0, 0, 0, 1, 0, 2, 0, 0];
    words.extend([8, 0, 0, 0, count as u32, 0, rows as u32, 0, 0]);
    for row in 3..rows as u32 {
        words.extend([1, 0, 0, 0, 0, 2, row + 1, 0, 0]);
    }
    (words, rows)
}

/// So many nulls that two such arrays have more rows than a table counts for.
pub const NULLS: usize = MOST / 2 - 1;

//! Contents about as wide as one field holds, or two, or three: strings, keys, bytes and containers of 65,535 bytes and one
//! more, of 131,070 and one more, one inside another, so that cuts fall at several depths at once, inside heads, texts and
//! parts.

use super::made::{made, made_so, Made};
use super::{Item, Source};
use crate::documents::Rng;
use crate::second::questions::BADROW;
use crate::second::stored::{Ways, BADFORM, HEAD, WAYS, WIDEST};
use crate::tables::trees::{plain, Node};

/// Contents at which a field is full.
pub const FULL: [usize; 3] = [WIDEST, 2 * WIDEST, 3 * WIDEST];

/// The longest text whose field, in its parts, has at most so many bytes.
fn fitting(bytes: usize) -> usize {
    let field = |text: usize| text + HEAD * (text.saturating_sub(1) / WIDEST + 1);
    (0..=bytes - HEAD).rev().find(|text| field(*text) <= bytes).expect("a field has a head")
}

/// A tree whose root's content has about so many bytes, and just so many where one field holds it: a text, or a text in
/// containers, or many rows.
pub fn tree(form: usize, content: usize) -> Node {
    let text = |bytes: usize| vec![b'a'; bytes];
    let null = || Node::Leaf(1, Vec::new());
    match form {
        0 => Node::Leaf(6, text(content)),
        1 => Node::Leaf(7, text(content)),
        2 => Node::Array(vec![Node::Leaf(6, text(fitting(content)))]),
        3 => Node::Object(vec![(text(fitting(content - 3)), null())]),
        4 => Node::Object(vec![(b"k".to_vec(), Node::Array(vec![Node::Leaf(7, text(fitting(fitting(content - 4))))]))]),
        // Nulls, and a string that makes up what is left.
        5 => {
            let mut list: Vec<_> = (1..content / 3).map(|_| null()).collect();
            list.push(Node::Leaf(6, text(content % 3)));
            Node::Array(list)
        }
        _ => {
            let pairs = (content - 12) / 12;
            let mut list: Vec<_> = (0..pairs).map(|i| (format!("{i:06}").into_bytes(), null())).collect();
            list.push((format!("k{:-<1$}", "", 5 + (content - 12) % 12).into_bytes(), null()));
            Node::Object(list)
        }
    }
}

pub const FORMS: usize = 7;

/// A table of such a content.
pub fn table(form: usize, content: usize) -> Item {
    let node = tree(form, content);
    Item::Table { table: plain(&node, true), source: Source::WideTable, known: Some(Ok(made(&node).bytes)) }
}

/// The same beside an integer that is none.
pub fn faulty(form: usize, content: usize) -> Item {
    let node = Node::Array(vec![tree(form, content), Node::Leaf(4, b"-0".to_vec())]);
    Item::Table { table: plain(&node, false), source: Source::WideTable, known: Some(Err(BADROW)) }
}

/// The form of such a content.
pub fn bytes(form: usize, content: usize) -> Item {
    good(made(&tree(form, content)), Source::Wide)
}

/// A string of so many bytes, so many containers deep, with an integer before it in each: its table, and its form.
pub fn inside(text: usize, depth: usize, array: bool) -> [Item; 2] {
    let node = (0..depth).fold(Node::Leaf(6, vec![b'a'; text]), |node, _| match array {
        true => Node::Array(vec![Node::Leaf(4, b"7".to_vec()), node]),
        false => Node::Object(vec![(b"k".to_vec(), node)]),
    });
    let made = made(&node);
    let (table, known) = (plain(&node, true), Some(Ok(made.bytes.clone())));
    [Item::Table { table, source: Source::WideTable, known }, good(made, Source::Wide)]
}

fn good(made: Made, source: Source) -> Item {
    Item::Bytes { bytes: made.bytes, source, known: Some(Ok(made.loaded)) }
}

/// Texts of any kind, of which some are long, and small ones beside them, some levels deep: a cut falls anywhere.
pub fn nested(rng: &mut Rng) -> Node {
    let long = FULL[rng.below(2)] - 40 + rng.below(80);
    let mut node = long_text(rng, long);
    for _ in 0..rng.below(6) {
        let (before, behind) = (rng.below(4), rng.below(4));
        let mut list: Vec<_> = (0..before).map(|_| small(rng)).collect();
        list.push(node);
        list.extend((0..behind).map(|_| small(rng)));
        if rng.once_in(6) {
            let more = WIDEST - 400 + rng.below(500);
            list.insert(rng.below(list.len() + 1), long_text(rng, more));
        }
        node = match rng.once_in(2) {
            true => Node::Array(list),
            false => Node::Object(list.into_iter().enumerate().map(|(i, value)| (key(rng, i), value)).collect()),
        };
    }
    node
}

fn small(rng: &mut Rng) -> Node {
    match rng.below(6) {
        0 => Node::Leaf(1 + rng.below(3) as u32, Vec::new()),
        1 => Node::Leaf(4, format!("-{}", 1 + rng.below(100_000)).into_bytes()),
        2 => Node::Leaf(5, b"12.5e-7"[..2 + rng.below(2)].to_vec()).mended(),
        3 => Node::Leaf(6, "aß€\u{1F600}".repeat(rng.below(4)).into_bytes()),
        4 => Node::Array(vec![Node::Leaf(6, b"x".to_vec()); rng.below(3)]),
        _ => Node::Object(vec![("ß€".repeat(rng.below(20)).into_bytes(), Node::Leaf(7, vec![0xFF; rng.below(5)]))]),
    }
}

/// Keys of one object differ; now and then one is long, or begins as others do.
fn key(rng: &mut Rng, i: usize) -> Vec<u8> {
    match rng.below(8) {
        0 => format!("{i}{}", "ß".repeat(WIDEST / 2 - 20 + rng.below(40))).into_bytes(),
        1 => format!("{:€<40}{i}", "").into_bytes(),
        _ => format!("k{i}").into_bytes(),
    }
}

fn long_text(rng: &mut Rng, bytes: usize) -> Node {
    let filled = |unit: &str| {
        let mut text = unit.repeat(bytes / unit.len());
        text.push_str(&"a".repeat(bytes - text.len()));
        text.into_bytes()
    };
    match rng.below(8) {
        0 => Node::Leaf(4, [&b"-1"[..], &vec![b'0'; bytes - 2]].concat()),
        1 => {
            let (from, to) = (1 + rng.below(bytes - 9), bytes - 5);
            let mut text = vec![b'7'; bytes];
            text[from.min(to - 1)] = b'.';
            text[to..to + 2].copy_from_slice(b"e-");
            Node::Leaf(5, text)
        }
        2 => Node::Leaf(7, (0..bytes).map(|i| (i * 31) as u8).collect()),
        3 => Node::Leaf(6, filled("€")),
        4 => Node::Leaf(6, filled("\u{1F600}")),
        5 => Node::Array(vec![Node::Leaf(1, Vec::new()); bytes / 3]),
        6 => tree(6, bytes),
        _ => Node::Leaf(6, filled("aß")),
    }
}

impl Node {
    /// A float of two bytes has a point behind its digit.
    fn mended(self) -> Node {
        match self {
            Node::Leaf(5, text) if !text.contains(&b'.') => Node::Leaf(5, b"1.".to_vec()),
            node => node,
        }
    }
}

/// Parts cut in another way, and heads of parts that say something else: no stored forms, but for those that it leaves as
/// they are.
pub fn spoilt(rng: &mut Rng, node: &Node) -> Item {
    let right = made(node).bytes;
    let other = |ways: Ways| made_so(node, ways).bytes;
    let bytes = match rng.below(9) {
        // Parts of 65,534 bytes; a part where just 65,535 bytes remain, and an empty end behind it; parts that come early.
        0 => other(Ways { part: WIDEST - 1, ..WAYS }),
        1 | 8 => other(Ways { most: WIDEST - 1, ..WAYS }),
        2 => other(Ways { part: WIDEST - 1, most: WIDEST - 1, ..WAYS }),
        3 => other(Ways { part: 1_000, most: 40_000, ..WAYS }),
        // A byte about a head of the root's parts, or any byte, is another one.
        4 | 5 => {
            let cut = (1 + rng.below(3)) * (WIDEST + HEAD) + rng.below(12);
            changed(rng, &right, cut.saturating_sub(6))
        }
        6 => {
            let at = rng.below(right.len());
            changed(rng, &right, at)
        }
        _ => {
            let kept = right.len() - 1 - rng.below(6);
            right[..kept].to_vec()
        }
    };
    Item::Bytes { bytes, source: Source::Parts, known: None }
}

fn changed(rng: &mut Rng, right: &[u8], at: usize) -> Vec<u8> {
    let mut bytes = right.to_vec();
    if let Some(byte) = bytes.get_mut(at) {
        *byte = [0, 1, 6, 8, 9, 11, 254, 255, b'a', rng.below(256) as u8][rng.below(10)];
    }
    bytes
}

/// An object of many keys, cut somewhere, and perhaps two of them the same: any two, or one that is cut.
pub fn keys(rng: &mut Rng) -> (Node, bool) {
    let long = [1, 2, 9, 30, 200][rng.below(5)];
    let each = 6 + HEAD + long;
    let count = (FULL[rng.below(2)] + rng.below(400)) / each + 2;
    let name = |i: usize| format!("{i:06}{:ß<1$}", "", long / 2).into_bytes();
    let mut pairs: Vec<_> = (0..count).map(|i| (name(i), Node::Leaf(1, Vec::new()))).collect();
    let repeats = rng.once_in(2);
    if repeats {
        let about = WIDEST / (pairs[0].0.len() + 2 * HEAD) - 1 + rng.below(3);
        let one = if rng.once_in(2) { about.min(count - 1) } else { rng.below(count) };
        let other = (one + 1 + rng.below(count - 1)) % count;
        pairs[one].0 = pairs[other].0.clone();
    }
    let inside = rng.below(3);
    let node = (0..inside).fold(Node::Object(pairs), |node, _| Node::Array(vec![small(rng), node, small(rng)]));
    (node, !repeats)
}

fn keyed(rng: &mut Rng) -> Item {
    let (node, sound) = keys(rng);
    let made = made(&node);
    let known = if sound { Ok(made.loaded) } else { Err(BADFORM) };
    Item::Bytes { bytes: made.bytes, source: Source::Wide, known: Some(known) }
}

/// One of them.
pub fn any(rng: &mut Rng) -> Item {
    let (form, content) = (rng.below(FORMS), FULL[rng.below(3)] - 4 + rng.below(9));
    match rng.below(10) {
        0 => table(form, content),
        1 => faulty(form, content),
        2 => bytes(form, content),
        3 => {
            let node = nested(rng);
            Item::Table { table: plain(&node, true), source: Source::WideTable, known: Some(Ok(made(&node).bytes)) }
        }
        4 => good(made(&nested(rng)), Source::Wide),
        5 => keyed(rng),
        _ => {
            let node = match rng.below(3) {
                0 => tree(form, FULL[rng.below(3)]),
                1 => tree(form, content),
                _ => nested(rng),
            };
            spoilt(rng, &node)
        }
    }
}

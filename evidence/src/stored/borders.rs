//! Tables and bytes whose answers document 02 and its readings fix.

use super::{made, wide, Item, Source};
use crate::hex;
use crate::second::stored::{head, Ways, BADFORM, HEAD, PART, WAYS, WIDEST};
use crate::second::{Second, MOST, NESTING};
use crate::tables::trees::{plain, Node};

/// Bytes that are no stored form.
const BAD: [&str; 52] = [
    // No bytes, part of a head, no content, a byte too many.
    "-",
    "01",
    "0100",
    "040001",
    "04000231",
    "01000000",
    "010000010000",
    "0400013100",
    // Kinds 1 to 3 have no content.
    "01000100",
    "02000161",
    "030003010000",
    // Tags that are no value's.
    "000000",
    "0b0000",
    "0c0000",
    "ff0000",
    "80000161",
    "0a0000",
    "0a000161",
    // Texts that no scalar has.
    "040000",
    "0400012d",
    "0400022d30",
    "0400023031",
    "0400022b31",
    "04000131ff",
    "050000",
    "05000131",
    "0500012e",
    "0500023165",
    "0500042d6e616e",
    "060001ff",
    "060002c080",
    "060003eda080",
    "0600048f8080",
    // In an array no key stands.
    "0800040a000161",
    "0800070a000161010000",
    "080003000000",
    "0800030b0000",
    // In an object a key and a value take turns.
    "090003010000",
    "0900040a000161",
    "09000601000001 0000",
    "0900080a0001610a000162",
    "09000a0a000161010000010000",
    "09000b0a0001610100000a000162",
    "0900070600016101 0000",
    "0900070a0001ff010000",
    // A key that repeats, also the empty one.
    "09000e0a0001610100000a000161020000",
    "09000c0a00000100000a0000020000",
    "08001109000e0a0001610100000a000161020000",
    // Lengths that lie.
    "08000304000131",
    "08000504000131",
    "080006040001310400",
    "0800080400023104000131",
];

/// Bytes that are one, and what they are read as.
const GOOD: [(&str, &str); 13] = [
    ("010000", "null"),
    ("020000", "false"),
    ("030000", "true"),
    ("060000", "\"\""),
    ("070000", "<>"),
    ("080000", "[]"),
    ("090000", "{}"),
    ("080009040001310400023232", "[1, 22]"),
    ("0900060a0000010000", "{\"\": null}"),
    ("0900070a000161010000", "{a: null}"),
    ("09000e0a0001610100000a000162020000", "{a: null, b: false}"),
    ("08000e0800030100000900050a0000040000", ""),
    ("08000c0800030100000900060a0000", ""),
];

/// All of them, those of the vectors among them.
pub fn borders() -> Vec<Item> {
    let parsed = |text: &str| hex::parse(&text.replace(' ', "")).expect("hex");
    let bad = BAD.iter().map(|text| no(parsed(text)));
    let good = GOOD.iter().map(|(text, doc)| match doc {
        &"" => no(parsed(text)),
        doc => stored(&format!("{doc}\n").into_bytes(), parsed(text)),
    });
    let vectors = VECTORS.lines().map(|line| {
        let columns: Vec<_> = line.split('\t').map(|column| hex::parse(column).expect("hex")).collect();
        stored(&columns[0], columns[2].clone())
    });
    let wide = (0..wide::FORMS).flat_map(|form| {
        let about = wide::FULL.into_iter().flat_map(|full| [full, full + 1]);
        about.flat_map(move |content| [wide::table(form, content), wide::bytes(form, content)])
    });
    let faulty = (0..wide::FORMS).map(|form| wide::faulty(form, WIDEST + 1));
    deep().chain(bad).chain(good).chain(vectors).chain(levels()).chain(wide).chain(faulty).chain(parts()).collect()
}

/// Texts at the borders inside containers that are all in parts themselves: cuts fall at each depth.
fn deep() -> impl Iterator<Item = Item> {
    let texts = [WIDEST, WIDEST + 1, 2 * WIDEST, 2 * WIDEST + 1];
    let depths = [(1, true), (1, false), (2, true), (3, false), (NESTING, true), (NESTING, false)];
    texts.into_iter().flat_map(move |text| depths.map(|(depth, array)| wide::inside(text, depth, array))).flatten()
}

/// The longest stored forms, and those that are too long: a text, and a null and a text under a key, in containers.
pub fn longest() -> impl Iterator<Item = Item> {
    let field = |content: usize| content + HEAD * (content.saturating_sub(1) / WIDEST + 1);
    let text = |more: usize| Node::Leaf(7, vec![9; MOST - 256 * HEAD + more]);
    let nested = |text: usize| {
        let pair = (b"key".to_vec(), Node::Leaf(6, vec![b'a'; text]));
        Node::Array(vec![Node::Leaf(1, Vec::new()), Node::Object(vec![pair])])
    };
    let most = (0..MOST).rev().find(|&text| field(HEAD + field(HEAD + 3 + field(text))) <= MOST).expect("a length");
    [text(0), text(1), nested(most), nested(most + 1)].into_iter().map(|node| Item::Table {
        table: plain(&node, true),
        source: Source::WideTable,
        known: None,
    })
}

/// Documents, what the writer writes for each, and their stored forms.
pub const VECTORS: &str = include_str!("../../vectors/written.tsv");

fn no(bytes: Vec<u8>) -> Item {
    Item::Bytes { bytes, source: Source::Border, known: Some(Err(BADFORM)) }
}

/// A document's table, whose stored form is known.
fn stored(doc: &[u8], form: Vec<u8>) -> Item {
    let table = Second::new().given(doc).expect("a document").into();
    Item::Table { table, source: Source::Border, known: Some(Ok(form)) }
}

/// Parts that are none: of 65,534 bytes, with an empty end behind them, where just 65,535 bytes remain, before nothing, under
/// the true tag, and an end under another.
fn parts() -> Vec<Item> {
    let about = |bytes: usize, ways: Ways| made::made_so(&Node::Leaf(6, vec![b'a'; bytes]), ways).bytes;
    let part = about(WIDEST + 1, WAYS);
    let mut truly_tagged = part.clone();
    truly_tagged[0] = 6;
    let mut never_ended = part.clone();
    never_ended[WIDEST + 3] = PART;
    let mut other = part.clone();
    other[WIDEST + 3] = 8;
    let in_parts = |tag: u8, bytes: usize| [&head(PART, bytes)[..], &vec![b'7'; bytes], &head(tag, 1), b"7"].concat();
    let nested = |bytes: &[u8]| [&head(8, bytes.len() & 0xFFFF)[..], bytes].concat();
    let all = [
        about(WIDEST + 1, Ways { part: WIDEST - 1, ..WAYS }),
        about(WIDEST, Ways { most: WIDEST - 1, ..WAYS }),
        about(2 * WIDEST, Ways { most: WIDEST - 1, ..WAYS }),
        part[..WIDEST + 3].to_vec(),
        part[..WIDEST + 5].to_vec(),
        truly_tagged,
        never_ended,
        other,
        in_parts(6, 0),
        in_parts(6, 1),
        in_parts(4, 40),
        nested(&in_parts(6, 1)),
        vec![PART, 0, 0],
        [&head(PART, 0)[..], &[1, 0, 0]].concat(),
    ];
    all.into_iter().map(no).collect()
}

/// 32 containers one inside another, and one more.
fn levels() -> impl Iterator<Item = Item> {
    let nested = |levels: usize, array: bool| {
        (0..levels).fold(Node::Leaf(1, Vec::new()), |node, _| match array {
            true => Node::Array(vec![node]),
            false => Node::Object(vec![(b"k".to_vec(), node)]),
        })
    };
    [(NESTING, true), (NESTING, false), (NESTING + 1, true), (NESTING + 1, false)].into_iter().map(
        move |(levels, array)| {
            let made = made::made(&nested(levels, array));
            let known = if levels > NESTING { Err(BADFORM) } else { Ok(made.loaded) };
            Item::Bytes { bytes: made.bytes, source: Source::Border, known: Some(known) }
        },
    )
}

//! Large objects, without a repeated key or with one whose place is known: near the one it repeats or far from it, spelled in
//! another way, below other objects, in one line, and among keys chosen to cost the most.

use super::super::keys::{self, lettered};
use super::{named, unknown, Large, Make};
use crate::documents::grow::Meant;
use crate::second::{Refusal, LONGEST, REPEAT};

/// So many keys, and of two of them, by number, the later one is spelled as the earlier.
const REPEATED: [(usize, &[(usize, usize)]); 14] = [
    (40_000, &[(0, 39_999)]),
    (40_000, &[(39_998, 39_999)]),
    (130_000, &[(0, 1)]),
    (130_000, &[(0, 16)]),
    (130_000, &[(15, 17)]),
    (130_000, &[(1_639, 1_640)]),
    (130_000, &[(3_279, 3_280)]),
    (130_000, &[(100, 6_560)]),
    (130_000, &[(65_535, 65_536)]),
    (130_000, &[(0, 129_999)]),
    (130_000, &[(64_000, 128_000)]),
    // Of several the one whose later key comes first.
    (130_000, &[(5, 90_000), (80_000, 80_001)]),
    (130_000, &[(100_000, 120_000), (1, 119_999), (7, 129_000)]),
    (130_000, &[(7, 20_000), (7, 40_000), (7, 60_000)]),
];

/// How a key is written.
type Spelling = fn(&[u8]) -> String;

const SPELLINGS: [Spelling; 4] = [
    |key| String::from_utf8_lossy(key).into_owned(),
    |key| format!("'{}'", String::from_utf8_lossy(key)),
    |key| format!("\"{}\"", String::from_utf8_lossy(key)),
    |key| format!("\"{}\"", key.iter().map(|byte| format!("\\u{{{byte:x}}}")).collect::<String>()),
];

pub fn keys() -> impl Iterator<Item = (String, Make)> {
    let alone = [40_000, 130_000, 149_000]
        .into_iter()
        .map(|count| named(format!("{count} short keys"), move || unknown(keys::shortest(count).into_bytes())));
    let repeated = REPEATED.iter().map(|&(count, pairs)| {
        named(format!("{count} short keys, {pairs:?} repeated"), move || flat(count, pairs, |_| 0))
    });
    let spelled = [(0, 20_000), (100, 101), (3_000, 19_999)]
        .into_iter()
        .map(|pair| named(format!("{pair:?} of keys spelled in four ways"), move || flat(30_000, &[pair], |i| i % 4)));
    alone.chain(repeated).chain(spelled).chain(chosen()).chain(below())
}

/// Root objects of keys of three letters; `(i, j)` puts the i-th key where the j-th would stand, spelled in the next way.
fn flat(count: usize, pairs: &[(usize, usize)], spelling: fn(usize) -> usize) -> Large {
    let (mut doc, mut repeat) = (String::new(), None);
    for i in 0..count {
        let pair = pairs.iter().find(|pair| pair.1 == i);
        if pair.is_some() {
            repeat = repeat.or(Some(doc.len()));
        }
        let (key, way) = pair.map_or((i, spelling(i)), |pair| (pair.0, (spelling(pair.0) + spelling(1)) % 4));
        doc.push_str(&SPELLINGS[way](&lettered(key, 3)));
        doc.push_str(": 1\n");
    }
    Large { doc: doc.into_bytes(), meant: repeat.map(repeats) }
}

fn repeats(place: usize) -> Meant {
    Err(Refusal { number: REPEAT, place })
}

/// No line of theirs has more bytes, so that there is room for one more.
const LINE: usize = 4_200;

/// Keys chosen to cost the most, without a repeated one, with one in the last line, and with one in the middle.
fn chosen() -> impl Iterator<Item = (String, Make)> {
    const CHOSEN: [(&str, fn(usize) -> String); 12] = [
        ("of one chain", keys::of_one_chain),
        ("of one mark", keys::of_one_mark),
        ("of one mark and one chain", keys::of_one_mark_and_chain),
        ("that share their last 32 bytes", keys::of_one_end),
        ("of one class", keys::of_one_class),
        ("of one sum", keys::of_one_sum),
        ("of one sum and one chain", keys::of_one_sum_and_chain),
        ("of one sum and two marks", keys::of_one_sum_and_mark),
        ("of one hash", keys::of_one_hash),
        ("of one hash, in quotes", keys::of_one_hash_in_quotes),
        ("that share their first 256 bytes", keys::of_one_beginning),
        ("that share their first 256 bytes, of one mark", keys::of_one_beginning_and_mark),
    ];
    let ways = [("", None), (", the first repeated at the end", Some(1)), (", the first repeated halfway", Some(2))];
    CHOSEN.into_iter().flat_map(move |(name, made)| {
        ways.map(move |(way, part)| named(format!("keys {name}{way}"), move || again(made(LONGEST - LINE), part)))
    })
}

/// The first line once more, at the end or in the middle.
fn again(object: String, part: Option<usize>) -> Large {
    let Some(part) = part else { return unknown(object.into_bytes()) };
    let mut lines: Vec<&str> = object.split_inclusive('\n').collect();
    let at = lines.len() / part;
    let place = lines[..at].concat().len();
    lines.insert(at, lines[0]);
    Large { doc: lines.concat().into_bytes(), meant: Some(repeats(place)) }
}

/// Large objects inside others and beside them, in blocks and in one line; the same keys in many objects repeat nothing.
fn below() -> impl Iterator<Item = (String, Make)> {
    let line = |depth: usize, key: &str| format!("{}{key}: 1\n", " ".repeat(depth));
    let many =
        move |depth: usize, count: usize| -> String { (0..count).map(|i| line(depth, &format!("k{i}"))).collect() };
    let bullets = "- ".repeat(31);
    let deep = move || [bullets.clone(), many(62, 13_000)[62..].to_string()].concat();
    let around = move || ["a:\n", &many(2, 80_000), "b: 1\n"].concat();
    let small = |count: usize| -> String { (0..count).map(|i| format!("  k{i}: 1\n")).collect() };
    let beside = move |objects: usize, keys: usize| -> String {
        (0..objects).map(|i| format!("o{i}:\n{}", small(keys))).collect()
    };
    let inline = |keys: usize| (0..keys).map(|i| format!("k{i}: 1, ")).collect::<String>();
    let repeated = |doc: String, last: String| {
        let place = doc.len() + last.len() - last.trim_start().len();
        Large { doc: (doc + &last).into_bytes(), meant: Some(repeats(place)) }
    };
    let deeply = deep.clone();
    vec![
        named("13,000 keys below 31 bullets", move || unknown(deep().into_bytes())),
        named("a key repeated there", move || repeated(deeply(), line(62, "k7"))),
        named("an object of 80,000 keys inside another", move || unknown(around().into_bytes())),
        named("a key of that around it repeated", move || repeated(around(), line(0, "a"))),
        named("5,000 objects of 16 keys", move || unknown(beside(5_000, 16).into_bytes())),
        named("5,000 objects of 18 keys", move || unknown(beside(5_000, 18).into_bytes())),
        named("the first of those around them repeated", move || repeated(beside(5_000, 18), line(0, "o0"))),
        named("a key of the last of them repeated", move || repeated(beside(5_000, 18), line(2, "k17"))),
        named("90,000 keys in one line", move || unknown(format!("{{{}z: 1}}\n", inline(90_000)).into_bytes())),
        named("one of them repeated", move || {
            let mut large = repeated(format!("{{{}", inline(90_000)), "k5: 1".into());
            large.doc.extend_from_slice(b"}\n");
            large
        }),
    ]
    .into_iter()
}

//! Sheets and installed versions that are one step away from a right one.

use super::shapes::{array, image, integer, Pairs, IMAGE};
use super::versions::Version;
use crate::documents::Rng;
use crate::tables::trees::Node;

/// Names that are nearly a sheet's key.
const NAMES: [&str; 10] =
    ["Version", "versio", "versions", "version ", "versiom", "", "floor\0", "Floor", "images", "image-channel"];

fn leaf(kind: u32, text: &[u8]) -> Node {
    Node::Leaf(kind, text.to_vec())
}

/// What is nearly an array of 1 to 8 integers not below zero.
fn array_of(rng: &mut Rng, version: &Version) -> Node {
    let mut list = array(version);
    let at = rng.below(list.len());
    let digits = version[at].as_bytes();
    match rng.below(12) {
        0..=1 => list[at] = integer(&format!("-{}", if version[at] == "0" { "1" } else { &version[at] })),
        2 => list.clear(),
        3 => list.extend((list.len()..9).map(|_| integer("0"))),
        4 => list.extend((list.len()..9).map(|_| integer(&version[at]))),
        5 => list[at] = leaf(5, &[digits, b"."].concat()),
        6 => list[at] = leaf(6, digits),
        7 => list[at] = leaf(7, digits),
        8 => list[at] = Node::Array(vec![integer(&version[at])]),
        9 => list[at] = leaf(1 + rng.below(3) as u32, b""),
        10 => return leaf(4 + 2 * rng.below(2) as u32, digits),
        _ => return Node::Object(vec![(version[at].clone().into_bytes(), integer("1"))]),
    }
    Node::Array(list)
}

/// What is nearly bytes of length 32.
fn image_of(rng: &mut Rng) -> Node {
    let bytes = [IMAGE - 1, IMAGE + 1, 0, 2 * IMAGE][rng.below(4)];
    match rng.below(6) {
        0 => leaf(6, &[b'a'; IMAGE]),
        1 => Node::Array((0..IMAGE).map(|_| integer("7")).collect()),
        2 => leaf(1, b""),
        _ => Node::Leaf(7, image(rng, bytes)),
    }
}

fn place_of(pairs: &Pairs, key: &[u8]) -> usize {
    pairs.iter().position(|pair| pair.0 == key).expect("a sheet's key")
}

/// What is nearly the sheet of these pairs.
pub fn sheet(rng: &mut Rng, mut pairs: Pairs, version: &Version) -> Node {
    let at = rng.below(pairs.len());
    let here = rng.below(pairs.len() + 1);
    match rng.below(14) {
        0..=4 => {
            let at = place_of(&pairs, [&b"version"[..], b"floor"][rng.below(2)]);
            pairs[at].1 = array_of(rng, version);
        }
        5..=6 => {
            let at = place_of(&pairs, b"image");
            pairs[at].1 = image_of(rng);
        }
        7 => pairs.insert(here, (b"image-channel".to_vec(), leaf(6, b"stable"))),
        8 => drop(pairs.remove(at)),
        9 => pairs.insert(here, (pairs[at].0.clone(), Node::Array(array(version)))),
        10 => pairs[at].0 = rng.pick(&NAMES).as_bytes().to_vec(),
        11 => return Node::Array(pairs.into_iter().map(|pair| pair.1).collect()),
        12 => return Node::Array(vec![Node::Object(pairs)]),
        _ => return Node::Object(vec![(b"sheet".to_vec(), Node::Object(pairs))]),
    }
    Node::Object(pairs)
}

/// What is nearly this installed version.
pub fn installed(rng: &mut Rng, version: &Version) -> Node {
    match rng.below(10) {
        0 => Node::Array(vec![Node::Array(array(version))]),
        1 => Node::Object(vec![(b"version".to_vec(), Node::Array(array(version)))]),
        _ => array_of(rng, version),
    }
}

//! Sheets and installed versions as trees.

use super::versions::Version;
use crate::documents::Rng;
use crate::tables::trees::{self, Node};
use crate::tables::Table;

/// An object's pairs.
pub type Pairs = Vec<(Vec<u8>, Node)>;

/// How many bytes an image has.
pub const IMAGE: usize = 32;

pub fn integer(number: &str) -> Node {
    Node::Leaf(4, number.as_bytes().to_vec())
}

pub fn image(rng: &mut Rng, bytes: usize) -> Vec<u8> {
    (0..bytes).map(|_| rng.below(256) as u8).collect()
}

pub fn array(version: &Version) -> Vec<Node> {
    version.iter().map(|number| integer(number)).collect()
}

/// The pairs of a sheet, in any order.
pub fn sheet(rng: &mut Rng, version: &Version, floor: &Version) -> Pairs {
    let mut pairs = vec![
        (b"version".to_vec(), Node::Array(array(version))),
        (b"floor".to_vec(), Node::Array(array(floor))),
        (b"image".to_vec(), Node::Leaf(7, image(rng, IMAGE))),
    ];
    pairs.swap(0, rng.below(3));
    pairs.swap(1, 1 + rng.below(2));
    pairs
}

/// The table of a tree, now and then in rooms that are longer than it needs.
pub fn table(rng: &mut Rng, node: &Node) -> Table {
    let mut table = trees::table(rng, node, true);
    if rng.once_in(4) {
        lengthen(rng, &mut table);
    }
    table
}

/// Words behind the rows, and bytes behind the text.
pub fn lengthen(rng: &mut Rng, table: &mut Table) {
    table.words.extend((0..rng.below(20)).map(|_| rng.below(12) as u32));
    table.text.extend((0..rng.below(20)).map(|_| b"0123456789-\xff"[rng.below(12)]));
}

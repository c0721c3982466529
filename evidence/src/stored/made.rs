//! A tree, its stored form and the rows that loading gives, made beside each other.

use crate::second::stored::{Loaded, Ways, HEAD, WAYS};
use crate::second::WORDS;
use crate::tables::trees::Node;

/// A stored form and what loading it gives, if the tree is sound.
pub struct Made {
    pub bytes: Vec<u8>,
    pub loaded: Loaded,
}

pub fn made(node: &Node) -> Made {
    made_so(node, WAYS)
}

/// The same, where contents are cut in such ways: bytes that are no stored form, but for their parts.
pub fn made_so(node: &Node, ways: Ways) -> Made {
    let loaded = Loaded { words: Vec::new(), text: Vec::new() };
    let mut maker = Maker { made: Made { bytes: Vec::new(), loaded }, ways };
    maker.value(node, 0);
    maker.made
}

struct Maker {
    made: Made,
    ways: Ways,
}

impl Maker {
    /// Head and row of a field that is closed later; the row, and where its head stands.
    fn open(&mut self, kind: u32, parent: usize) -> (usize, usize) {
        let Made { bytes, loaded } = &mut self.made;
        let (row, at) = (loaded.words.len() / WORDS, bytes.len());
        loaded.words.extend([kind, at as u32, 0, 0, 0, parent as u32, 0, 0, 0]);
        bytes.extend([kind as u8, 0, 0]);
        (row, at)
    }

    /// Once its content is whole, a field is cut; all that stands inside moves by the heads that come before it.
    fn close(&mut self, (row, at): (usize, usize)) {
        let Made { bytes, loaded } = &mut self.made;
        let content = bytes.split_off(at)[HEAD..].to_vec();
        let (rows, part) = (loaded.words.len() / WORDS, self.ways.part);
        self.ways.cut(loaded.words[row * WORDS] as u8, &content, bytes);
        let words = &mut loaded.words[row * WORDS..];
        (words[2], words[6]) = (bytes.len() as u32, rows as u32);
        if content.len() > self.ways.most {
            // The heads before a byte of the content, the first one left out.
            let heads = |place: u32| ((place as usize - at - HEAD) / part * HEAD) as u32;
            for words in words[WORDS..].chunks_mut(WORDS) {
                words[1] += heads(words[1]);
                words[2] += heads(words[2] - 1);
            }
        }
    }

    fn leaf(&mut self, kind: u32, text: &[u8], parent: usize) {
        let opened = self.open(kind, parent);
        let Made { bytes, loaded } = &mut self.made;
        let words = &mut loaded.words[opened.0 * WORDS..];
        if kind > 3 {
            words[3] = loaded.text.len() as u32;
            words[4] = words[3] + text.len() as u32;
        }
        bytes.extend_from_slice(text);
        loaded.text.extend_from_slice(text);
        self.close(opened);
    }

    fn value(&mut self, node: &Node, parent: usize) {
        let (kind, count) = match node {
            Node::Leaf(kind, text) => return self.leaf(*kind, text, parent),
            Node::Array(list) => (8, list.len()),
            Node::Object(pairs) => (9, pairs.len()),
        };
        let opened = self.open(kind, parent);
        self.made.loaded.words[opened.0 * WORDS + 4] = count as u32;
        match node {
            Node::Leaf(..) => {}
            Node::Array(list) => list.iter().for_each(|element| self.value(element, opened.0)),
            Node::Object(pairs) => pairs.iter().for_each(|(key, value)| {
                self.leaf(10, key, opened.0);
                self.value(value, opened.0);
            }),
        }
        self.close(opened);
    }
}

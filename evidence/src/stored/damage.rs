//! A stored form damaged in every byte, cut at every place, and with every head telling something else, one after another.

use super::{Item, Source};
use crate::documents::Rng;

/// What a byte is changed to.
const BYTE_WAYS: usize = 7;
/// What a tag is changed to.
const TAGS: [u8; 15] = [0, 1, 2, 3, 4, 5, 6, 7, 8, 9, 10, 11, 12, 128, 255];
/// What is added to a length, and what it is changed to.
const MORE: [isize; 10] = [1, -1, 2, -2, 3, -3, 4, 255, 256, -256];
const LENGTHS: [u16; 4] = [0, 1, 0xffff, 0x0100];
/// What stands behind.
const BEHIND: [&[u8]; 7] = [b"\0", b"\x01", b"\x01\0\0", b"\x04\0\x011", b"\xff\xff\xff", b"\x0b\0\0", b"\n"];

/// The damaged forms of a stored one.
pub struct Damage {
    good: Vec<u8>,
    /// Where its heads stand.
    heads: Vec<usize>,
    next: usize,
}

impl Damage {
    /// The form is a good one.
    pub fn new(good: Vec<u8>) -> Damage {
        let (mut heads, mut at) = (Vec::new(), 0);
        while at < good.len() {
            heads.push(at);
            let content = usize::from(u16::from_be_bytes([good[at + 1], good[at + 2]]));
            at += if matches!(good[at], 8 | 9) { 3 } else { 3 + content };
        }
        Damage { good, heads, next: 0 }
    }

    /// The next damaged form; nothing when there was every one.
    pub fn next(&mut self, rng: &mut Rng) -> Option<Item> {
        let mut index = self.next;
        self.next += 1;
        let lengths = MORE.len() + LENGTHS.len();
        let ways = [
            (Source::Changed, self.good.len() * BYTE_WAYS),
            (Source::Cut, self.good.len()),
            (Source::Behind, BEHIND.len()),
            (Source::Lengths, self.heads.len() * lengths),
            (Source::Tags, self.heads.len() * TAGS.len()),
        ];
        for (source, count) in ways {
            if index < count {
                return Some(Item::Bytes { bytes: self.damaged(source, index, lengths, rng), source, known: None });
            }
            index -= count;
        }
        None
    }

    fn damaged(&self, source: Source, index: usize, lengths: usize, rng: &mut Rng) -> Vec<u8> {
        let mut bytes = self.good.clone();
        match source {
            Source::Changed => change(&mut bytes[index / BYTE_WAYS], index % BYTE_WAYS, rng),
            Source::Cut => bytes.truncate(index),
            Source::Behind => bytes.extend_from_slice(BEHIND[index]),
            Source::Lengths => {
                let at = self.heads[index / lengths];
                let old = u16::from_be_bytes([bytes[at + 1], bytes[at + 2]]);
                let new = match index % lengths {
                    way if way < MORE.len() => (old as isize + MORE[way]) as u16,
                    way => LENGTHS[way - MORE.len()],
                };
                bytes[at + 1..at + 3].copy_from_slice(&new.to_be_bytes());
            }
            _ => bytes[self.heads[index / TAGS.len()]] = TAGS[index % TAGS.len()],
        }
        bytes
    }
}

fn change(byte: &mut u8, way: usize, rng: &mut Rng) {
    *byte = match way {
        0 => byte.wrapping_add(1),
        1 => byte.wrapping_sub(1),
        2 => *byte ^ 0x80,
        3 => 0,
        4 => 0xff,
        5 => rng.below(12) as u8,
        _ => rng.below(256) as u8,
    };
}

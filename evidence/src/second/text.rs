//! The text as it is gathered: never longer than the document, so its room is set once.

use super::scan::PAD;

#[derive(Default)]
pub struct Text {
    bytes: Vec<u8>,
    len: usize,
}

impl Text {
    /// Empties the text, with room for a document of `size` bytes.
    pub fn clear(&mut self, size: usize) {
        if self.bytes.len() < size + PAD {
            self.bytes.resize(size + PAD, 0);
        }
        self.len = 0;
    }

    #[inline]
    pub fn len(&self) -> usize {
        self.len
    }

    pub fn all(&self) -> &[u8] {
        &self.bytes[..self.len]
    }

    #[inline]
    pub fn part(&self, from: u32, to: u32) -> &[u8] {
        &self.bytes[from as usize..to as usize]
    }

    /// Folds the bytes of a part as words of eight, the last filled up with zeros.
    #[inline]
    pub fn fold(&self, from: u32, to: u32, mut state: u64, mix: impl Fn(u64, u64) -> u64) -> u64 {
        let mut left = (to - from) as usize;
        let mut rest = &self.bytes[from as usize..];
        while left > 8 {
            let (word, more) = rest.split_first_chunk().expect("the room is padded");
            state = mix(state, u64::from_le_bytes(*word));
            rest = more;
            left -= 8;
        }
        let word = rest.first_chunk().expect("the room is padded");
        mix(state, u64::from_le_bytes(*word) & (1_u64.checked_shl(8 * left as u32).unwrap_or(0)).wrapping_sub(1))
    }

    #[inline]
    pub fn push(&mut self, byte: u8) {
        self.bytes[self.len] = byte;
        self.len += 1;
    }

    pub fn fill(&mut self, count: usize, byte: u8) {
        self.bytes[self.len..self.len + count].fill(byte);
        self.len += count;
    }

    /// Appends `doc[from..to]`; a short one is copied with what follows it, which is faster.
    #[inline(always)]
    pub fn copy(&mut self, doc: &[u8], from: usize, to: usize) {
        let size = to - from;
        match (doc[from..].first_chunk::<PAD>(), self.bytes[self.len..].first_chunk_mut::<PAD>()) {
            (Some(piece), Some(room)) if size <= PAD => *room = *piece,
            _ => self.bytes[self.len..self.len + size].copy_from_slice(&doc[from..to]),
        }
        self.len += size;
    }

    pub fn extend(&mut self, bytes: &[u8]) {
        self.bytes[self.len..self.len + bytes.len()].copy_from_slice(bytes);
        self.len += bytes.len();
    }
}

//! Targets lent for rows and text, in interesting sizes, and every word and byte of them compared.

use super::{first_wrong, GUARD};
use crate::documents::Rng;
use crate::second::overlay::{told, Laid, Told};
use crate::second::WORDS;

/// How many words and bytes are lent.
pub type Room = (usize, usize);

/// Targets, and what they hold before they are lent.
#[derive(Default)]
pub struct Targets {
    table: Vec<u32>,
    old_table: Vec<u32>,
    text: Vec<u8>,
    old_text: Vec<u8>,
}

/// What is told of a result in such rooms, or of a refusal.
pub fn expected(meant: &Result<Laid, u32>, (words, bytes): Room) -> Told {
    meant.as_ref().map_or_else(|number| (*number, 0, 0), |laid| told(laid, words, bytes))
}

impl Targets {
    /// The first difference, in words, of what `work` says and does with targets of such sizes.
    pub fn difference(
        &mut self,
        meant: &Result<Laid, u32>,
        room @ (words, bytes): Room,
        work: impl FnOnce(&mut [u32], &mut [u8]) -> Told,
    ) -> Option<String> {
        let expected = expected(meant, room);
        let (rows, new): (&[u32], &[u8]) = match meant {
            Ok(laid) if expected.0 == 0 => (&laid.words, &laid.text),
            _ => (&[], &[]),
        };
        self.lend(words, bytes);
        let (table, text) = (&mut self.table[..words + GUARD], &mut self.text[..bytes + GUARD]);
        let said = work(&mut table[..words], &mut text[..bytes]);
        let what = if said != expected {
            format!("expected {expected:?}, got {said:?}")
        } else if let Some(i) = first_wrong(table, rows, &self.old_table) {
            format!("word {i} of {} is {}", rows.len(), table[i])
        } else {
            let i = first_wrong(text, new, &self.old_text)?;
            format!("text byte {i} of {} is {}", new.len(), text[i])
        };
        Some(format!("with {words} words and {bytes} bytes lent: {what}"))
    }

    /// Targets of so many words and bytes, that hold what is to stay.
    fn lend(&mut self, words: usize, bytes: usize) {
        let (words, bytes) = (words + GUARD, bytes + GUARD);
        for i in self.old_table.len()..words {
            self.old_table.push(0xA500_0000 ^ (i as u32).wrapping_mul(0x9E37_79B1));
        }
        for i in self.old_text.len()..bytes {
            self.old_text.push((i as u8).wrapping_mul(31) ^ 0x5A);
        }
        self.table.resize(words.max(self.table.len()), 0);
        self.text.resize(bytes.max(self.text.len()), 0);
        self.table[..words].copy_from_slice(&self.old_table[..words]);
        self.text[..bytes].copy_from_slice(&self.old_text[..bytes]);
    }
}

/// Exact rooms, one word, row or byte fewer or more, none, and random ones.
pub fn rooms(meant: &Result<Laid, u32>, rng: &mut Rng) -> Vec<Room> {
    let Ok(Laid { words, text }) = meant else {
        return vec![(rng.below(60), rng.below(20)), (0, 0)];
    };
    let (words, bytes) = (words.len(), text.len());
    vec![
        (words, bytes),
        (words - 1, bytes + rng.below(9)),
        (words - WORDS, bytes.saturating_sub(1)),
        (words + rng.below(2), bytes.saturating_sub(1)),
        (words + 1 + rng.below(3 * WORDS), bytes + 1 + rng.below(20)),
        [(0, 0), (words, 0), (0, bytes), (words + WORDS, bytes + 1)][rng.below(4)],
        (rng.below(words + 20), rng.below(bytes + 9)),
    ]
}

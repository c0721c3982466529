//! A table damaged in every word and every byte of its text, in several ways each, one after another.

use super::Table;
use crate::documents::Rng;
use crate::second::WORDS;

/// How a word is damaged.
const WORD_WAYS: usize = 9;
/// What a byte of text is changed to.
const BYTES: [u8; 14] = [0x00, b'0', b'1', b'-', b'+', b'.', b'e', b'"', b'\\', b'\n', b' ', 0x80, 0xc3, 0xff];
/// How counts and rooms are damaged.
const ROOM_WAYS: usize = 10;

/// The damaged forms of a table, without end of them known before: as many as it has words and bytes, and ways.
pub struct Damage {
    good: Table,
    next: usize,
}

impl Damage {
    pub fn new(good: Table) -> Damage {
        Damage { good, next: 0 }
    }

    /// The next damaged form; nothing when every word and byte was damaged in every way.
    pub fn next(&mut self, rng: &mut Rng) -> Option<Table> {
        let (words, bytes) = (self.good.words.len() * WORD_WAYS, self.good.text.len() * BYTES.len());
        let index = self.next;
        self.next += 1;
        let mut table = Table { sound: None, ..self.good.clone() };
        if index < words {
            let (at, way) = (index / WORD_WAYS, index % WORD_WAYS);
            table.words[at] = self.word(rng, at, way);
            // Spans, lines and columns are passed over.
            if matches!(at % WORDS, 1 | 2 | 7 | 8) {
                table.sound = self.good.sound;
            }
        } else if index < words + bytes {
            let index = index - words;
            table.text[index / BYTES.len()] = BYTES[index % BYTES.len()];
        } else if index < words + bytes + ROOM_WAYS {
            rooms(rng, &mut table, index - words - bytes);
        } else {
            return None;
        }
        Some(table)
    }

    fn word(&self, rng: &mut Rng, at: usize, way: usize) -> u32 {
        let old = self.good.words[at];
        match way {
            0 => old.wrapping_add(1),
            1 => old.wrapping_sub(1),
            2 => 0,
            3 => 10,
            4 => 11,
            5 => 1 << 24 | old,
            6 => u32::MAX,
            // Another row's.
            7 => self.good.words[rng.below(self.good.rows) * WORDS + at % WORDS],
            _ => 1 + rng.below(10) as u32,
        }
    }
}

/// Counts off by one, words and bytes too few or more than enough.
fn rooms(rng: &mut Rng, table: &mut Table, way: usize) {
    match way {
        0 => table.rows += 1,
        1 => table.rows -= 1,
        2 => table.rows = 0,
        3 => table.rows = usize::MAX - rng.below(3),
        4 => drop(table.words.pop()),
        5 => table.words.truncate(rng.below(table.words.len())),
        6 => drop(table.text.pop()),
        7 => {
            let more = more(rng, WORDS + 3);
            table.words.extend(more);
        }
        8 => {
            let more = more(rng, 20);
            table.text.extend(more.map(|word| word as u8));
        }
        _ => {
            let more = more(rng, 2 * WORDS);
            table.words.extend(more);
            table.rows += 1;
        }
    }
}

fn more(rng: &mut Rng, most: usize) -> impl Iterator<Item = u32> + '_ {
    (0..1 + rng.below(most)).map(|_| rng.below(12) as u32)
}

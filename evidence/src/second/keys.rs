//! A table of the keys of large objects, found by hash. A document has too few
//! keys to fill it, so that it never grows.

#[derive(Default)]
pub struct Keys {
    /// 0 is free; else a key's row plus 1 in the low half, part of its hash in the high half.
    slots: Vec<u64>,
    size: usize,
}

const LOW: u64 = 0xFFFF_FFFF;

impl Keys {
    /// Empties the table for a document of `bytes` bytes; each key takes at least five of them.
    pub fn clear(&mut self, bytes: usize) {
        self.slots.clear();
        self.size = (bytes / 4).next_power_of_two();
    }

    /// Adds a key's row unless one with the same hash is `same`; tells whether there was one.
    #[inline]
    pub fn met(&mut self, hash: u64, row: u32, same: impl Fn(u32) -> bool) -> bool {
        if self.slots.is_empty() {
            self.slots.resize(self.size, 0);
        }
        let mask = self.slots.len() - 1;
        let mark = hash & !LOW;
        let mut i = hash as usize & mask;
        while self.slots[i] != 0 {
            let slot = self.slots[i];
            if slot & !LOW == mark && same((slot & LOW) as u32 - 1) {
                return true;
            }
            i = (i + 1) & mask;
        }
        self.slots[i] = mark | u64::from(row + 1);
        false
    }
}

/// One step of a hash over words.
#[inline]
pub fn mix(state: u64, word: u64) -> u64 {
    let wide = (state ^ word).wrapping_mul(0x9E37_79B9_7F4A_7C15);
    wide ^ wide >> 32
}

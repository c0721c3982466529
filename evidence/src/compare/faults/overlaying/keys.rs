//! Other keys, and other orders of them.

use super::values::NULL;
use crate::second::overlay::{laid_over, Rules, Value, RULES};

/// The mark of a key, as repeated keys have it.
fn mark(key: &[u8]) -> u32 {
    key.iter().fold(0, |mark: u32, byte| mark.wrapping_mul(2).wrapping_add(u32::from(*byte)))
}

/// Other keys, and other orders of them.
pub const KEYS: [(&str, Rules); 11] = [
    (
        "the upper's new keys stand first",
        Rules {
            order: |kept, mut new| {
                new.extend(kept);
                new
            },
            ..RULES
        },
    ),
    (
        "new keys stand in reverse",
        Rules {
            order: |mut kept, new| {
                kept.extend(new.into_iter().rev());
                kept
            },
            ..RULES
        },
    ),
    (
        "new keys are sorted",
        Rules {
            order: |mut kept, mut new| {
                new.sort_by_key(|pair| pair.0);
                kept.extend(new);
                kept
            },
            ..RULES
        },
    ),
    (
        "all keys are sorted",
        Rules {
            order: |mut kept, new| {
                kept.extend(new);
                kept.sort_by_key(|pair| pair.0);
                kept
            },
            ..RULES
        },
    ),
    ("new keys are lost", Rules { order: |kept, _| kept, ..RULES }),
    (
        "new keys below the root are lost",
        Rules {
            objects: |r, l, u| laid_over(&Rules { order: |kept, _| kept, ..*r }, l, u).map(Value::Object),
            ..RULES
        },
    ),
    (
        "null takes a key away",
        Rules {
            order: |mut kept, new| {
                kept.extend(new);
                kept.retain(|pair| pair.1 != NULL);
                kept
            },
            ..RULES
        },
    ),
    ("the case of keys does not matter", Rules { name: |key| key.to_ascii_lowercase().into(), ..RULES }),
    ("keys of one mark are one", Rules { name: |key| mark(key).to_le_bytes().to_vec().into(), ..RULES }),
    (
        "keys are compared without their last byte",
        Rules { name: |key| key.split_last().map_or(key, |(_, k)| k).into(), ..RULES },
    ),
    ("keys are compared by 16 bytes", Rules { name: |key| key[..key.len().min(16)].into(), ..RULES }),
];

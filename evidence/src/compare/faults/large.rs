//! Readers that are right on documents of some thousand bytes.

use super::{rows, Faulty, Read};
use crate::compare::Reader;
use crate::second::{Refusal, Second, LONG, LONGEST, REPEAT, ROWS};

/// The longest document before request 11, and the most that two bytes count.
const SHORT: usize = 32_768;
const SOME: usize = 65_536;

const FAULTS: [(&str, Read); 8] = [
    ("over 32,768 bytes are LONG", |second, doc, table, room| {
        if doc.len() > SHORT {
            return Err(Refusal { number: LONG, place: 0 });
        }
        second.read(doc, table, room)
    }),
    ("one byte more than the longest is let in", |second, doc, table, room| {
        second.read(&doc[..doc.len() - usize::from(doc.len() == LONGEST + 1)], table, room)
    }),
    ("refusal places begin anew at 65,536", |second, doc, table, room| {
        second.read(doc, table, room).map_err(|no| match no.number {
            2..=6 => Refusal { place: no.place % SOME, ..no },
            _ => no,
        })
    }),
    ("repeated keys far behind are not found", |second, doc, table, room| {
        second.read(doc, table, room).or_else(|no| match no.number {
            REPEAT if no.place > 8 * SOME => second.read(b"{}\n", table, room),
            _ => Err(no),
        })
    }),
    ("the rows needed begin anew at 65,536", |second, doc, table, room| {
        second.read(doc, table, room).map_err(|no| match no.number {
            ROWS => Refusal { place: no.place % SOME, ..no },
            _ => no,
        })
    }),
    ("lines begin anew at 65,536", |second, doc, table, room| {
        rows(second, doc, table, room, |_, table, row| table[row + 7] %= SOME as u32)
    }),
    ("columns begin anew at 65,536", |second, doc, table, room| {
        rows(second, doc, table, room, |_, table, row| table[row + 8] %= SOME as u32)
    }),
    ("places of texts begin anew at 65,536", |second, doc, table, room| {
        rows(second, doc, table, room, |_, table, row| table[row + 4] %= SOME as u32)
    }),
];

/// All of them.
pub fn faults() -> Vec<(&'static str, Box<dyn Reader>)> {
    let faulty = |&(name, read): &(&'static str, Read)| -> (_, Box<dyn Reader>) {
        (name, Box::new(Faulty { name, second: Second::new(), read }))
    };
    FAULTS.iter().map(faulty).collect()
}

//! Times of the proved reader and of the second reader on a document.

#[cfg(feature = "decided")]
pub mod deciding;
#[cfg(feature = "stored")]
pub mod large;
#[cfg(feature = "overlaid")]
pub mod overlaying;
#[cfg(feature = "stored")]
pub mod storing;

use crate::clock::{Clock, Machine, Shortest};
#[cfg(feature = "written")]
use crate::compare::writing::Writer;
use crate::compare::{Reader, Said};
use crate::proved::Proved;
#[cfg(feature = "written")]
use crate::second::questions::Lent;
#[cfg(feature = "written")]
use crate::second::write::written;
use crate::second::{Answer, Second, LONGEST, WORDS};
use std::hint::black_box;

/// Each document has at least and at most so many turns; between the two, as many as take this long.
const FEW: usize = 20;
const MANY: usize = 3_000;
const LONG_ENOUGH: f64 = 0.25;

/// The shortest of many times, in seconds.
#[derive(Clone, Copy)]
pub struct Best {
    pub bytes: usize,
    pub proved: f64,
    pub second: f64,
}

impl Best {
    /// Nanoseconds a byte of the proved reader.
    pub fn a_byte(&self) -> f64 {
        self.proved / self.bytes as f64 * 1e9
    }
}

/// The shortest times of reading what was written, of writing it, and of the test of soundness alone, in seconds.
#[cfg(feature = "written")]
#[derive(Clone, Copy)]
pub struct Written {
    pub bytes: usize,
    pub reading: f64,
    pub writing: f64,
    pub testing: f64,
}

/// Both readers, with rooms that are large enough for any document, and what their times are measured by.
pub struct Bench {
    pub clock: Clock,
    machine: Machine,
    second: Second,
    table: Vec<u32>,
    room: Vec<u8>,
}

impl Default for Bench {
    fn default() -> Self {
        let machine = Machine::default();
        let clock = Clock::of(&machine);
        Bench { clock, machine, second: Second::new(), table: vec![0; WORDS * LONGEST], room: vec![0; LONGEST] }
    }
}

impl Bench {
    pub fn proved(&mut self, doc: &[u8]) -> Said {
        Proved.read(doc, &mut self.table, &mut self.room)
    }

    pub fn second(&mut self, doc: &[u8]) -> Answer {
        self.second.read(doc, &mut self.table, &mut self.room)
    }

    /// The answer of both readers, with the same rows, text and escapes; nothing where they differ.
    pub fn both(&mut self, doc: &[u8]) -> Option<Answer> {
        let proved = self.proved(doc);
        let (table, room) = (self.table.clone(), self.room.clone());
        let second = self.second(doc);
        (proved == second.into() && table == self.table && room == self.room).then_some(second)
    }

    /// The two readers take turns.
    pub fn best(&mut self, doc: &[u8]) -> Best {
        let (mut proved, mut second) = (Shortest::default(), Shortest::default());
        let Bench { clock, machine, second: reader, table, room } = self;
        for round in 1..=MANY {
            proved.turn(machine, *clock, || {
                let _ = black_box(Proved.read(black_box(doc), table, room));
            });
            second.turn(machine, *clock, || {
                let _ = black_box(reader.read(black_box(doc), table, room));
            });
            if round >= FEW && proved.all + second.all > LONG_ENOUGH {
                break;
            }
        }
        Best { bytes: doc.len(), proved: proved.a_call, second: second.a_call }
    }

    /// A document is read, written, and what was written read and written again and again. Nothing if it is refused, or
    /// if what is written is not what the second writer writes.
    #[cfg(feature = "written")]
    pub fn written(&mut self, doc: &[u8]) -> Option<Written> {
        let Said { number: 0, values: [rows, bytes, _] } = self.proved(doc) else { return None };
        let (table, text) = (self.table[..rows * WORDS].to_vec(), self.room[..bytes].to_vec());
        let lent = Lent { table: &table, rows, text: &text };
        let doc = written(&lent).ok()?;
        let mut out = vec![0; LONGEST];
        if Proved.write(&lent, &mut out) != (0, doc.len()) || out[..doc.len()] != doc {
            return None;
        }
        let mut times = [Shortest::default(), Shortest::default(), Shortest::default()];
        let Bench { clock, machine, table: rows, room, .. } = self;
        for round in 1..=MANY {
            let [reading, writing, testing] = &mut times;
            reading.turn(machine, *clock, || {
                let _ = black_box(Proved.read(black_box(&doc), rows, room));
            });
            writing.turn(machine, *clock, || {
                let _ = black_box(Proved.write(black_box(&lent), &mut out));
            });
            testing.turn(machine, *clock, || {
                let _ = black_box(Proved.sound(black_box(&lent)));
            });
            if round >= FEW && times.iter().map(|time| time.all).sum::<f64>() > LONG_ENOUGH {
                break;
            }
        }
        let [reading, writing, testing] = times.map(|time| time.a_call);
        Some(Written { bytes: doc.len(), reading, writing, testing })
    }
}

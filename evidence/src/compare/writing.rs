//! Compares a writer and a test of soundness with the second ones: their numbers, the count, and every byte of the
//! output, in rooms of interesting sizes; and reads what is written back, by both readers.

mod limits;
pub mod run;
pub mod told;

use super::{first_wrong, Reader, Said, GUARD};
use crate::documents::Rng;
use crate::second::questions::{Lent, BADROW};
use crate::second::sound::used;
use crate::second::write::written;
use crate::second::{Given, Refusal, Second, LONG, LONGEST, TEXT, WORDS};
use crate::tables::Table;

/// What is under test, with the reader that reads what it writes.
pub trait Writer: Reader {
    /// 0 or BADROW.
    fn sound(&self, lent: &Lent) -> u32;
    /// 0 and the bytes written; or the number, and the bytes needed for TEXT, else 0.
    fn write(&self, lent: &Lent, out: &mut [u8]) -> (u32, usize);
}

impl Writer for Second {
    fn sound(&self, lent: &Lent) -> u32 {
        number(crate::second::sound::sound(lent))
    }

    fn write(&self, lent: &Lent, out: &mut [u8]) -> (u32, usize) {
        crate::second::write::write(lent, out).map_or_else(|no| (no.number, no.place), |count| (0, count))
    }
}

impl Writer for Box<dyn Writer> {
    fn sound(&self, lent: &Lent) -> u32 {
        (**self).sound(lent)
    }

    fn write(&self, lent: &Lent, out: &mut [u8]) -> (u32, usize) {
        (**self).write(lent, out)
    }
}

impl Reader for Box<dyn Writer> {
    fn read(&mut self, doc: &[u8], table: &mut [u32], room: &mut [u8]) -> Said {
        (**self).read(doc, table, room)
    }
}

pub fn number(sound: bool) -> u32 {
    if sound {
        0
    } else {
        BADROW
    }
}

/// What was met.
pub const NAMES: [&str; 7] = ["sound", "not sound", "written", "LONG", "TEXT", "known from the making", "read back"];

/// How many tables there were, and how often each of `NAMES` was met.
#[derive(Default, Clone)]
pub struct Tally {
    pub tables: usize,
    pub met: [usize; NAMES.len()],
}

impl Tally {
    pub fn add(&mut self, other: &Tally) {
        self.tables += other.tables;
        self.met.iter_mut().zip(other.met).for_each(|(sum, more)| *sum += more);
    }
}

/// A far too large output.
const FAR: usize = LONGEST + 33_000;

pub struct Comparer {
    second: Second,
    /// What an output holds before a writer gets it.
    old: Vec<u8>,
    out: Vec<u8>,
    pub tally: Tally,
}

impl Default for Comparer {
    fn default() -> Self {
        let old: Vec<u8> = (0..FAR + GUARD).map(|i| (i as u8).wrapping_mul(29) ^ 0xC6).collect();
        Comparer { second: Second::new(), out: old.clone(), old, tally: Tally::default() }
    }
}

impl Comparer {
    /// The first difference, in words.
    pub fn difference(&mut self, writer: &mut dyn Writer, table: &Table, rng: &mut Rng) -> Option<String> {
        self.tally.tables += 1;
        let lent = table.lent();
        let used = used(&lent, None);
        self.tally.met[usize::from(used.is_none())] += 1;
        if let Some(sound) = table.sound {
            self.tally.met[5] += 1;
            if sound != used.is_some() {
                return Some(format!("the second test of soundness says {}, and the table was made so", !sound));
            }
        }
        let said = writer.sound(&lent);
        if said != number(used.is_some()) {
            return Some(format!("expected {} of soundness, got {said}", number(used.is_some())));
        }
        let meant = written(&lent);
        for bytes in rooms(&meant, rng) {
            let what = self.in_room(writer, &lent, &meant, bytes);
            if what.is_some() {
                return what;
            }
        }
        self.read_back(writer, &lent, used?, &meant.ok()?)
    }

    fn in_room(
        &mut self,
        writer: &dyn Writer,
        lent: &Lent,
        meant: &Result<Vec<u8>, Refusal>,
        bytes: usize,
    ) -> Option<String> {
        let (number, count, new): (u32, usize, &[u8]) = match meant {
            Err(no) => (no.number, no.place, &[]),
            Ok(doc) if doc.len() > bytes => (TEXT, doc.len(), &[]),
            Ok(doc) => (0, doc.len(), doc),
        };
        match number {
            0 => self.tally.met[2] += 1,
            LONG => self.tally.met[3] += 1,
            TEXT => self.tally.met[4] += 1,
            _ => {}
        }
        let out = &mut self.out[..bytes + GUARD];
        out.copy_from_slice(&self.old[..bytes + GUARD]);
        let said = writer.write(lent, &mut out[..bytes]);
        let what = if said != (number, count) {
            format!("expected {number} and {count}, got {} and {}", said.0, said.1)
        } else {
            let i = first_wrong(out, new, &self.old)?;
            format!("byte {i} of {} is {}", new.len(), out[i])
        };
        Some(format!("with {bytes} bytes lent for output: {what}"))
    }

    /// What was written is read by both readers as the same kinds, texts and nesting, and is written so again.
    fn read_back(&mut self, writer: &mut dyn Writer, lent: &Lent, used: usize, doc: &[u8]) -> Option<String> {
        self.tally.met[6] += 1;
        let given = match self.second.given(doc) {
            Ok(given) => given,
            Err(no) => return Some(format!("what was written is refused: {no:?}")),
        };
        if !same_but_spans(lent, used, &given) {
            return Some("what was written is read as another tree".into());
        }
        let rows = given.words.len() / WORDS;
        let again = Lent { table: &given.words, rows, text: &given.text };
        if written(&again).as_deref() != Ok(doc) {
            return Some("what was written and read is written otherwise".into());
        }
        let (mut table, mut room) = (vec![0; given.words.len()], vec![0; given.text.len()]);
        let said = writer.read(doc, &mut table, &mut room);
        let expected = Said { number: 0, values: [rows, given.text.len(), given.escapes] };
        let same = said == expected && table == given.words && room == given.text;
        (!same).then(|| format!("what was written is read back as {said:?}"))
    }
}

/// Whether a table's rows and the text that it uses are what a document gives, spans, lines and columns aside.
pub fn same_but_spans(lent: &Lent, used: usize, given: &Given) -> bool {
    let rows = lent.rows * WORDS;
    let but_spans = |words: &[u32]| -> Vec<[u32; 5]> {
        words.chunks_exact(WORDS).map(|row| [row[0], row[3], row[4], row[5], row[6]]).collect()
    };
    rows == given.words.len()
        && but_spans(&lent.table[..rows]) == but_spans(&given.words)
        && lent.text[..used] == given.text
}

/// Exact, one byte short, empty, larger and random rooms.
fn rooms(meant: &Result<Vec<u8>, Refusal>, rng: &mut Rng) -> Vec<usize> {
    let mut rooms = match meant {
        Err(no) if no.number == LONG => vec![0, LONGEST, LONGEST + 1],
        Err(_) => vec![rng.below(40)],
        Ok(doc) => vec![doc.len(), doc.len() - 1, 0, doc.len() + 1 + rng.below(40), rng.below(doc.len())],
    };
    if rng.once_in(100) {
        rooms.push(FAR);
    }
    rooms
}

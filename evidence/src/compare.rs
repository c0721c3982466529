//! Compares a reader under test with the second reader: number and all three values,
//! rows, text and every word and byte that has to stay as it was, in rooms of
//! interesting sizes.

mod asked;
pub mod deciding;
pub mod faults;
pub mod forms;
pub mod large;
pub mod overlaying;
pub mod places;
pub mod run;
pub mod storing;
pub mod stream;
mod streams;
mod targets;
pub mod writing;

use crate::documents::grow::Meant;
use crate::documents::Rng;
use crate::second::questions::{self, Lent};
use crate::second::{Answer, Counts, Given, Refusal, Second, ROWS, TEXT, WORDS};
use std::ops::Range;

/// What a reader says, as the C interface has it: 0, rows, text bytes and escapes; or the number, the place, 0 and 0.
#[derive(Clone, Copy, PartialEq, Eq, Debug)]
pub struct Said {
    pub number: u32,
    pub values: [usize; 3],
}

impl From<Answer> for Said {
    fn from(answer: Answer) -> Said {
        match answer {
            Ok(Counts { rows, text, escapes }) => Said { number: 0, values: [rows, text, escapes] },
            Err(Refusal { number, place }) => Said { number, values: [place, 0, 0] },
        }
    }
}

/// What a reader under test offers.
pub trait Reader {
    fn read(&mut self, doc: &[u8], table: &mut [u32], room: &mut [u8]) -> Said;

    /// The questions, if it answers them.
    fn questions(&self) -> Option<&dyn Questions> {
        None
    }
}

pub trait Questions {
    fn row_text(&self, lent: &Lent, row: usize) -> Result<Range<usize>, u32>;
    fn find_key(&self, lent: &Lent, object: usize, key: &[u8]) -> Result<usize, u32>;
    fn compare_integers(&self, left: &[u8], right: &[u8]) -> Result<i32, u32>;
}

impl Reader for Box<dyn Reader> {
    fn read(&mut self, doc: &[u8], table: &mut [u32], room: &mut [u8]) -> Said {
        (**self).read(doc, table, room)
    }

    fn questions(&self) -> Option<&dyn Questions> {
        (**self).questions()
    }
}

impl Reader for Second {
    fn read(&mut self, doc: &[u8], table: &mut [u32], room: &mut [u8]) -> Said {
        Second::read(self, doc, table, room).into()
    }

    fn questions(&self) -> Option<&dyn Questions> {
        Some(&SecondQuestions)
    }
}

pub struct SecondQuestions;

impl Questions for SecondQuestions {
    fn row_text(&self, lent: &Lent, row: usize) -> Result<Range<usize>, u32> {
        lent.row_text(row)
    }

    fn find_key(&self, lent: &Lent, object: usize, key: &[u8]) -> Result<usize, u32> {
        lent.find_key(object, key)
    }

    fn compare_integers(&self, left: &[u8], right: &[u8]) -> Result<i32, u32> {
        questions::compare_integers(left, right)
    }
}

/// How often each answer number, each kind and place of a row and each form of backslash was met.
#[derive(Default, Clone)]
pub struct Tally {
    pub documents: usize,
    /// Answers by number, 0 for acceptance.
    pub numbers: [usize; 12],
    /// Questions asked.
    pub asked: usize,
    /// Rows of accepted documents by kind.
    pub kinds: [usize; 11],
    /// Backslashes of accepted documents, as forms::NAMES has them.
    pub forms: [usize; forms::NAMES.len()],
    /// Rows of accepted documents by their place, as places::NAMES has them.
    pub places: [usize; places::NAMES.len()],
}

impl Tally {
    pub fn add(&mut self, other: &Tally) {
        self.documents += other.documents;
        self.asked += other.asked;
        self.numbers.iter_mut().zip(other.numbers).for_each(|(sum, more)| *sum += more);
        self.kinds.iter_mut().zip(other.kinds).for_each(|(sum, more)| *sum += more);
        self.forms.iter_mut().zip(other.forms).for_each(|(sum, more)| *sum += more);
        self.places.iter_mut().zip(other.places).for_each(|(sum, more)| *sum += more);
    }
}

/// Words and bytes behind the lent rooms, which no reader may touch either.
const GUARD: usize = 8;
/// So many words and bytes more than are needed are far too large rooms.
const FAR: (usize, usize) = (WORDS * 33_000, 33_000);

#[derive(Default)]
pub struct Comparer {
    second: Second,
    /// What the rooms hold before a reader gets them; they grow with what is lent.
    old_table: Vec<u32>,
    old_room: Vec<u8>,
    table: Vec<u32>,
    room: Vec<u8>,
    pub tally: Tally,
}

impl Comparer {
    /// Numbers 1 to 6, or all that the document gives, by the second reader.
    pub fn expected(&mut self, doc: &[u8]) -> Meant {
        self.second.given(doc)
    }

    /// The first difference from what a document means, in words: in rooms of many sizes, and in the questions.
    /// `every` room is tried, or far too large ones only now and then.
    pub fn difference(
        &mut self,
        reader: &mut dyn Reader,
        doc: &[u8],
        meant: &Meant,
        every: bool,
        seed: u64,
    ) -> Option<String> {
        self.tally.documents += 1;
        let mut rng = Rng::new(seed);
        for (words, bytes) in rooms(meant, every, &mut rng) {
            let what = self.in_rooms(reader, doc, meant, words, bytes);
            if what.is_some() {
                return what;
            }
        }
        let Given { words, text, .. } = meant.as_ref().ok()?;
        for row in words.chunks_exact(WORDS) {
            self.tally.kinds[row[0] as usize] += 1;
            forms::count(doc, row, &mut self.tally.forms);
            places::count(doc, row, &mut self.tally.places);
        }
        asked::difference(reader.questions()?, words, text, &mut rng, &mut self.tally)
    }

    /// Rooms of so many words and bytes, that hold what is to stay.
    fn lend(&mut self, words: usize, bytes: usize) {
        for i in self.old_table.len()..words {
            self.old_table.push(0xA500_0000 ^ (i as u32).wrapping_mul(0x9E37_79B1));
        }
        for i in self.old_room.len()..bytes {
            self.old_room.push((i as u8).wrapping_mul(31) ^ 0x5A);
        }
        self.table.resize(words.max(self.table.len()), 0);
        self.room.resize(bytes.max(self.room.len()), 0);
        self.table[..words].copy_from_slice(&self.old_table[..words]);
        self.room[..bytes].copy_from_slice(&self.old_room[..bytes]);
    }

    fn in_rooms(
        &mut self,
        reader: &mut dyn Reader,
        doc: &[u8],
        meant: &Meant,
        words: usize,
        bytes: usize,
    ) -> Option<String> {
        let expected = answer_in(meant, words, bytes);
        self.tally.numbers[expected.map_or_else(|refusal| refusal.number as usize, |_| 0)] += 1;
        self.lend(words + GUARD, bytes + GUARD);
        let (table, room) = (&mut self.table[..words + GUARD], &mut self.room[..bytes + GUARD]);
        let said = reader.read(doc, &mut table[..words], &mut room[..bytes]);
        let (rows, text): (&[u32], &[u8]) = match (expected, meant) {
            (Ok(_), Ok(given)) => (&given.words, &given.text),
            _ => (&[], &[]),
        };
        let what = if said != expected.into() {
            format!("expected {:?}, got {said:?}", Said::from(expected))
        } else if let Some(i) = first_wrong(table, rows, &self.old_table) {
            format!("word {i} of {} is {}", rows.len(), table[i])
        } else {
            let i = first_wrong(room, text, &self.old_room)?;
            format!("text byte {i} of {} is {}", text.len(), room[i])
        };
        Some(format!("with {words} words and {bytes} bytes lent: {what}"))
    }
}

/// Where a room is not `new` and behind that as of `old`.
fn first_wrong<T: PartialEq>(room: &[T], new: &[T], old: &[T]) -> Option<usize> {
    let (filled, kept) = room.split_at(new.len());
    if filled == new && kept == &old[new.len()..room.len()] {
        return None;
    }
    (0..room.len()).find(|&i| room[i] != *new.get(i).unwrap_or(&old[i]))
}

/// The answer in rooms of the given sizes.
fn answer_in(meant: &Meant, words: usize, bytes: usize) -> Answer {
    let given = meant.as_ref().map_err(|refusal| *refusal)?;
    let counts = Counts { rows: given.words.len() / WORDS, text: given.text.len(), escapes: given.escapes };
    if given.words.len() > words {
        return Err(Refusal { number: ROWS, place: counts.rows });
    }
    if counts.text > bytes {
        return Err(Refusal { number: TEXT, place: counts.text });
    }
    Ok(counts)
}

/// From so many words on, exact rooms and those that are one word or one byte short are enough.
const LARGE: usize = WORDS * 40_000;

/// Empty, exact, one word or one byte short, larger and random rooms, as words and bytes.
fn rooms(meant: &Meant, every: bool, rng: &mut Rng) -> Vec<(usize, usize)> {
    let mut rooms = match meant {
        Err(_) => vec![(0, 0), (rng.below(80), rng.below(20))],
        Ok(given) => {
            let (words, bytes) = (given.words.len(), given.text.len());
            vec![
                (words, bytes),
                (words - 1, bytes),
                (words, bytes.saturating_sub(1)),
                (0, bytes),
                (words, 0),
                (0, 0),
                (words + rng.below(40), bytes + rng.below(40)),
                (rng.below(words + 1), rng.below(bytes + 1)),
            ]
        }
    };
    if matches!(meant, Ok(given) if given.words.len() >= LARGE) {
        rooms.truncate(3);
    }
    if every || rng.once_in(100) {
        let (words, bytes) = meant.as_ref().map_or((0, 0), |given| (given.words.len(), given.text.len()));
        rooms.push((words + FAR.0, bytes + FAR.1));
    }
    rooms
}

//! What a byte costs in the longest documents beside documents of 32 KB, and what large objects cost beside arrays of as many
//! bytes: reading, storing the table, and loading that. One document of 1 MB stands beside 32 different ones of 32 KB, each in
//! rooms of its own: both are as many bytes, in as much memory, and neither is seen more often than the other, so that it is
//! the length alone that tells them apart, not what a processor has learnt or keeps near of a document that it reads again
//! and again.

use super::{Bench, MANY};
use crate::clock::Shortest;
use crate::compare::storing::Stores;
use crate::compare::Reader;
use crate::documents::hostile::HOSTILE;
use crate::documents::shapes::SHAPES;
use crate::documents::{keys, Rng};
use crate::proved::Proved;
use crate::second::questions::Lent;
use crate::second::stored::{loaded, stored};
use crate::second::{LONGEST, REPEAT, WORDS};
use std::hint::black_box;

/// Places in a row of an object: its kind, and the count of its pairs.
const OBJECT: u32 = 9;
const TEXT_TO: usize = 4;
/// Each document has at least so many turns, and no more once they take so long; it has fewer where they take longer still.
const FEW: usize = 7;
const LONG_ENOUGH: f64 = 0.3;
const TOO_LONG: f64 = 4.0;
/// What seems to cost too much is measured so many times, and the shortest times count.
const TIMES: usize = 4;
/// How much more a byte may cost at 1 MB than at 32 KB.
const GROWTH: f64 = 1.5;
/// A byte that costs less, in nanoseconds, counts for so much: nothing but copying is measured there, by the speed of memory.
const COPIED: f64 = 0.1;
/// An object of more keys is large, and of still more very large; there a byte may cost so many times as much.
const KEYS: (usize, usize) = (1_600, 40_000);
const LARGE: f64 = 8.0;
const VERY_LARGE: f64 = 16.0;
/// The same of keys chosen to cost the most.
const CHOSEN: f64 = 40.0;

/// As many documents of 32 KB as one of 1 MB has bytes.
const SHORT: u64 = (LONGEST / keys::SOME) as u64;

/// The shortest times in seconds of reading documents, of storing their tables and of loading those, each if there is such a thing.
#[derive(Clone, Copy)]
pub struct Large {
    /// Of the documents, and of their stored forms.
    bytes: [usize; 3],
    /// The keys of the largest object.
    keys: usize,
    times: [f64; 3],
    second: f64,
}

impl Large {
    /// Nanoseconds a byte of the documents, or of the stored forms.
    fn a_byte(&self, what: usize) -> f64 {
        self.times[what] / self.bytes[what] as f64 * 1e9
    }

    fn shorter(self, other: Large) -> Large {
        let times = [0, 1, 2].map(|what| self.times[what].min(other.times[what]));
        Large { times, second: self.second.min(other.second), ..self }
    }
}

/// A document and those of the same form beside which it is measured.
pub struct Case {
    pub name: &'static str,
    small: Vec<Vec<u8>>,
    large: Vec<u8>,
    /// How many times as much a byte may cost, if that is known before.
    most: Option<f64>,
}

/// Every shape of 32 KB and of 1 MB.
pub fn shapes() -> impl Iterator<Item = Case> {
    let people = SHAPES.iter().map(|&(name, shape)| {
        let small = (1..=SHORT).map(|seed| shape(&mut Rng::new(seed), keys::SOME).into_bytes()).collect();
        Case { name, small, large: shape(&mut Rng::new(1), LONGEST).into_bytes(), most: None }
    });
    let hostile = HOSTILE.iter().map(|&(name, shape)| {
        let small = (0..SHORT).map(|_| shape(keys::SOME)).collect();
        Case { name, small, large: shape(LONGEST), most: None }
    });
    people.chain(hostile)
}

/// Large objects, each beside an array of as many bytes.
pub fn objects() -> impl Iterator<Item = Case> {
    let short = [
        ("40,000 short ones", keys::numbered(40_000), LARGE),
        ("130,000 short ones", keys::shortest(130_000), VERY_LARGE),
    ];
    let chosen: [(_, fn(usize) -> String); 12] = [
        ("of one chain", keys::of_one_chain),
        ("of one mark", keys::of_one_mark),
        ("of one mark and one chain", keys::of_one_mark_and_chain),
        ("of 200 bytes that share their last 32", keys::of_one_end),
        ("of one class in the first round", keys::of_one_class),
        ("two of one sum of products", keys::of_one_sum),
        ("two of one sum of products, all of one chain", keys::of_one_sum_and_chain),
        ("two of one sum of products, all of two marks and a hundred chains", keys::of_one_sum_and_mark),
        ("of 264 bytes that share their first 256", keys::of_one_beginning),
        ("of 268 bytes that share their first 256, of one mark and a hundred chains", keys::of_one_beginning_and_mark),
        ("of 4,100 bytes that share all that is in a hash", keys::of_one_hash),
        ("the same in quotes", keys::of_one_hash_in_quotes),
    ];
    let chosen = chosen.into_iter().map(|(name, made)| (name, made(LONGEST), CHOSEN));
    let beside = |name, [object, array]: [String; 2], most| Case {
        name,
        small: vec![array.into_bytes()],
        large: object.into_bytes(),
        most: Some(most),
    };
    let deep = [beside("130,000 short ones below 31 arrays", keys::below_arrays(130_000), VERY_LARGE)];
    let flat = short.into_iter().chain(chosen).map(move |(name, object, most)| {
        let array = keys::as_array(&object);
        beside(name, [object, array], most)
    });
    flat.chain(deep)
}

/// What a case costs, and how many times as much a byte may cost in the larger document.
pub struct Costs {
    small: Large,
    large: Large,
    most: f64,
}

impl Costs {
    pub fn good(&self) -> bool {
        [0, 1, 2].iter().all(|&what| self.times(what) <= self.most)
    }

    /// How many times as much a byte costs; 0 where there is nothing to be stored.
    fn times(&self, what: usize) -> f64 {
        match self.small.times[what] > 0.0 {
            true => self.large.a_byte(what) / self.small.a_byte(what).max(COPIED),
            false => 0.0,
        }
    }

    /// The columns of a table.
    pub fn told(&self) -> String {
        let part = |what: usize| match self.small.times[what] > 0.0 {
            true => {
                let (small, large) = (self.small.a_byte(what), self.large.a_byte(what));
                let mark = if self.times(what) > self.most { " TOO MUCH" } else { "" };
                format!("{small:.2} | {large:.2} | {:.2}{mark}", self.times(what))
            }
            false => " | | ".into(),
        };
        format!("{} | {} | {}", part(0), part(1), part(2))
    }

    /// The keys of the largest object, and the milliseconds of both readers on the larger document.
    pub fn read(&self) -> (usize, f64, f64) {
        (self.large.keys, self.large.times[0] * 1e3, self.large.second * 1e3)
    }
}

/// A document with what it is read, stored and loaded from and into.
struct Turned<'a> {
    doc: &'a [u8],
    /// Its table and text, and rooms of the same size; nothing where it is refused.
    known: (Vec<u32>, Vec<u8>),
    rooms: (Vec<u32>, Vec<u8>),
    form: Vec<u8>,
    out: Vec<u8>,
    /// The keys of its largest object.
    keys: usize,
}

impl Turned<'_> {
    fn rows(&self) -> usize {
        self.known.0.len() / WORDS
    }

    fn read(&mut self, reader: &mut impl Reader) {
        let _ = black_box(reader.read(black_box(self.doc), &mut self.rooms.0, &mut self.rooms.1));
    }

    fn store(&mut self) {
        let lent = Lent { table: &self.known.0, rows: self.rows(), text: &self.known.1 };
        let _ = black_box(Proved.store(black_box(&lent), &mut self.out));
    }

    fn load(&mut self) {
        let _ = black_box(Proved.load(black_box(&self.form), &mut self.rooms.0, &mut self.rooms.1));
    }
}

impl Bench {
    /// What a case costs, measured again where that seems to be too much. Nothing where something differs.
    pub fn costs(&mut self, case: &Case) -> Option<Costs> {
        let large = std::slice::from_ref(&case.large);
        let mut costs = Costs { small: self.large(&case.small)?, large: self.large(large)?, most: GROWTH };
        costs.most = case.most.unwrap_or(match costs.large.keys {
            keys if keys > KEYS.1 => VERY_LARGE,
            keys if keys > KEYS.0 => LARGE,
            _ => GROWTH,
        });
        for _ in 1..TIMES {
            if costs.good() {
                break;
            }
            costs.small = costs.small.shorter(self.large(&case.small)?);
            costs.large = costs.large.shorter(self.large(large)?);
        }
        Some(costs)
    }

    /// Documents are read, their tables stored and those loaded, again and again.
    fn large(&mut self, docs: &[Vec<u8>]) -> Option<Large> {
        let mut turned = docs.iter().map(|doc| self.turned(doc)).collect::<Option<Vec<_>>>()?;
        let stored = turned.iter().any(|one| one.rows() > 0);
        let mut times = [(); 4].map(|()| Shortest::default());
        let Bench { clock, machine, second: reader, .. } = self;
        for round in 1..=MANY {
            let [reading, storing, loading, second] = &mut times;
            reading.turn(machine, *clock, || turned.iter_mut().for_each(|one| one.read(&mut Proved)));
            second.turn(machine, *clock, || turned.iter_mut().for_each(|one| one.read(reader)));
            if stored {
                storing.turn(machine, *clock, || turned.iter_mut().for_each(Turned::store));
                loading.turn(machine, *clock, || turned.iter_mut().for_each(Turned::load));
            }
            let all = times.iter().map(|time| time.all).sum::<f64>();
            if round >= FEW && all > LONG_ENOUGH || all > TOO_LONG {
                break;
            }
        }
        let forms = turned.iter().map(|one| one.form.len()).sum();
        let keys = turned.iter().map(|one| one.keys).max()?;
        let [reading, storing, loading, second] = times.map(|time| time.a_call);
        let times = if stored { [reading, storing, loading] } else { [reading, 0.0, 0.0] };
        Some(Large { bytes: [turned.iter().map(|one| one.doc.len()).sum(), forms, forms], keys, times, second })
    }

    /// A document with its rooms, if both readers agree on it, and both stored forms of its table.
    fn turned<'a>(&mut self, doc: &'a [u8]) -> Option<Turned<'a>> {
        let answer = self.both(doc)?;
        let (rows, bytes) = answer.map_or((0, 0), |counts| (counts.rows, counts.text));
        let known = (self.table[..rows * WORDS].to_vec(), self.room[..bytes].to_vec());
        let lent = Lent { table: &known.0, rows, text: &known.1 };
        let form = if rows > 0 { self.kept(&lent)? } else { Vec::new() };
        let objects = known.0.chunks(WORDS).filter(|row| row[0] == OBJECT);
        let largest = objects.map(|row| row[TEXT_TO] as usize).max().unwrap_or(0);
        // A repeated key is looked for among all, and no table tells how many there are.
        let keys = if answer.is_err_and(|no| no.number == REPEAT) { doc.len() } else { largest };
        Some(Turned { doc, rooms: known.clone(), known, out: vec![0; form.len()], form, keys })
    }

    /// The stored form of a table, if it is stored and loaded as by the second functions.
    fn kept(&self, lent: &Lent) -> Option<Vec<u8>> {
        let form = stored(lent).ok()?;
        let known = loaded(&form).ok()?;
        let mut out = vec![0; form.len()];
        let mut rooms = (vec![0; known.words.len()], vec![0; known.text.len()]);
        let said = (Proved.store(lent, &mut out), Proved.load(&form, &mut rooms.0, &mut rooms.1));
        let same = out == form && rooms == (known.words, known.text);
        (said == ((0, form.len()), (0, lent.rows, lent.text.len())) && same).then_some(form)
    }
}

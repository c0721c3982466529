//! Storing and loading that are right but for one rule.

mod loading;

use super::overlaying::rooms::FILLINGS;
use super::overlaying::Fill;
use crate::compare::storing::Stores;
use crate::second::questions::Lent;
use crate::second::sound::{used, Test};
use crate::second::stored::{fill, head, put, store, stored, stored_so, Head, Loaded, Told, Ways, WAYS, WIDEST};
use crate::second::{TEXT, WORDS};
use loading::{loaded_by, Rules, ANSWERS, RESULTS, RULES, TAKING, TESTS};

type Store = fn(&Lent, &mut [u8]) -> (u32, usize);
/// How what was loaded is spoilt.
type Spoil = fn(&mut Loaded);

/// A second storing and loading of other ways.
struct Faulty {
    store: Box<dyn Fn(&Lent, &mut [u8]) -> (u32, usize) + Send + Sync>,
    rules: Rules,
    spoil: Spoil,
    fill: Fill,
    /// The whole of loading.
    load: Option<fn(&[u8], &mut [u32], &mut [u8]) -> Told>,
}

fn good() -> Faulty {
    Faulty { store: Box::new(store), rules: RULES, spoil: |_| {}, fill, load: None }
}

impl Stores for Faulty {
    fn store(&self, lent: &Lent, out: &mut [u8]) -> (u32, usize) {
        (self.store)(lent, out)
    }

    fn load(&self, bytes: &[u8], table: &mut [u32], text: &mut [u8]) -> Told {
        if let Some(load) = self.load {
            return load(bytes, table, text);
        }
        let mut loaded = loaded_by(&self.rules, bytes);
        if let Ok(loaded) = &mut loaded {
            (self.spoil)(loaded);
        }
        (self.fill)(&loaded, table, text)
    }
}

/// Other heads.
const HEADS: [(&str, Head); 7] = [
    ("the low byte comes first", |tag, length| [tag, length as u8, (length >> 8) as u8]),
    ("the high byte is lost", |tag, length| [tag, 0, length as u8]),
    ("a length counts its head", |tag, length| head(tag, length + 3)),
    ("a key has a string's tag", |tag, length| head(if tag == 10 { 6 } else { tag }, length)),
    ("tags count from 0", |tag, length| head(tag - 1, length)),
    ("false and true are exchanged", |tag, length| {
        let exchanged = match tag {
            2 => 3,
            3 => 2,
            tag => tag,
        };
        head(exchanged, length)
    }),
    (
        "an empty array is stored as null",
        |tag, length| if (tag, length) == (8, 0) { head(1, 0) } else { head(tag, length) },
    ),
];

/// Tests that storing passes over.
const UNTESTED: [(&str, Test); 6] = [
    ("a repeated key is stored", Test::Repeat),
    ("33 levels are stored", Test::Nesting),
    ("the integer -0 is stored", Test::MinusZero),
    ("a float that is none is stored", Test::Float),
    ("a string that is no UTF-8 is stored", Test::String),
    ("a key that is no UTF-8 is stored", Test::KeyString),
];

/// Other storings.
const STORING: [(&str, Store); 8] = [
    ("the bytes needed are one too few", |lent, out| match store(lent, out) {
        (TEXT, bytes) => (TEXT, bytes - 1),
        said => said,
    }),
    ("the bytes needed are those still missing", |lent, out| match store(lent, out) {
        (TEXT, bytes) => (TEXT, bytes - out.len()),
        said => said,
    }),
    ("what fits is stored though not all does", |lent, out| {
        let said = store(lent, out);
        if let (TEXT, Ok(form)) = (said.0, stored(lent)) {
            out.copy_from_slice(&form[..out.len()]);
        }
        said
    }),
    ("an output of just the bytes is too short", |lent, out| match store(lent, out) {
        (0, bytes) if bytes == out.len() => (TEXT, bytes),
        said => said,
    }),
    ("a byte behind is written", |lent, out| {
        let said = store(lent, out);
        if let (0, Some(byte)) = (said.0, out.get_mut(said.1)) {
            *byte = 0;
        }
        said
    }),
    ("the output is touched before a table is tested", |lent, out| {
        let said = store(lent, out);
        if let (9, Some(byte)) = (said.0, out.first_mut()) {
            *byte = 0;
        }
        said
    }),
    ("a table longer than its rows is not stored", |lent, out| {
        match lent.table.len() == lent.rows.wrapping_mul(WORDS) {
            true => store(lent, out),
            false => (9, 0),
        }
    }),
    ("a room longer than the text is not stored", |lent, out| match used(lent, None) == Some(lent.text.len()) {
        true => store(lent, out),
        false => (9, 0),
    }),
];

/// Contents cut in other ways.
const CUTTING: [(&str, Ways); 6] = [
    ("a part is cut where just 65,535 bytes remain", Ways { most: WIDEST - 1, ..WAYS }),
    ("65,536 bytes are not cut", Ways { most: WIDEST + 1, ..WAYS }),
    ("parts have 65,534 bytes", Ways { part: WIDEST - 1, ..WAYS }),
    ("no content is cut", Ways { most: usize::MAX, ..WAYS }),
    ("parts have the tag 12", Ways { head: |tag, length| head(if tag == 11 { 12 } else { tag }, length), ..WAYS }),
    ("parts tell no length", Ways { head: |tag, length| head(tag, if tag == 11 { 0 } else { length }), ..WAYS }),
];

/// All of them.
pub fn faults() -> Vec<(&'static str, Box<dyn Stores>)> {
    let heads = HEADS.iter().map(|&(name, head)| (name, Ways { head, ..WAYS }));
    let heads = heads.chain(CUTTING).map(|(name, ways)| {
        let store = move |lent: &Lent, out: &mut [u8]| put(&stored_so(lent, None, &ways), out);
        (name, Faulty { store: Box::new(store), ..good() })
    });
    let untested = UNTESTED.iter().map(|&(name, test)| {
        let store = move |lent: &Lent, out: &mut [u8]| put(&stored_so(lent, Some(test), &WAYS), out);
        (name, Faulty { store: Box::new(store), ..good() })
    });
    let storing = STORING.iter().map(|&(name, store)| (name, Faulty { store: Box::new(store), ..good() }));
    let by_rules = TESTS.iter().chain(&TAKING).map(|&(name, rules)| (name, Faulty { rules, ..good() }));
    let by_result = RESULTS.iter().map(|&(name, spoil)| (name, Faulty { spoil, ..good() }));
    let by_filling = FILLINGS.iter().map(|&(name, fill)| (name, Faulty { fill, ..good() }));
    let by_answer = ANSWERS.iter().map(|&(name, load)| (name, Faulty { load: Some(load), ..good() }));
    let storing = heads.chain(untested).chain(storing);
    let all = storing.chain(by_rules).chain(by_result).chain(by_filling).chain(by_answer);
    all.map(|(name, faulty)| (name, Box::new(faulty) as Box<dyn Stores>)).collect()
}

//! A slow checker of places: the papers' grammar followed literally, with all
//! alternatives kept, so that a prefix begins a document exactly if one is alive.
//! Each alternative counts the escapes that it has met.

mod characters;
mod grammar;
mod symbols;

use crate::second::{Refusal, CHAR, DEEP, END, REPEAT, SYNTAX};
pub use characters::begin_characters;
use grammar::rules;
use std::collections::HashSet;
use symbols::{consume, is_terminal, Consumed, Symbol};

/// No limit of nesting.
pub const UNLIMITED: u32 = u32::MAX;

#[derive(Clone, PartialEq, Eq, Hash)]
struct Alternative {
    /// What it still expects, the next symbol last.
    expected: Vec<Symbol>,
    escapes: usize,
}

/// All alternatives that are alive after the bytes taken so far.
#[derive(Clone)]
pub struct Alive {
    alternatives: Vec<Alternative>,
}

impl Alive {
    /// Before the first byte, with at most `nesting` containers one inside another.
    pub fn new(nesting: u32) -> Self {
        expand(vec![Alternative { expected: vec![Symbol::Document(nesting)], escapes: 0 }])
    }

    /// The alternatives that go on with `byte`.
    pub fn after(&self, byte: u8) -> Self {
        let go_on = |alternative: &Alternative| {
            let (next, rest) = alternative.expected.split_last()?;
            let mut expected = rest.to_vec();
            match consume(*next, byte) {
                Consumed::No => return None,
                Consumed::Whole => {}
                Consumed::Part(symbol) => expected.push(symbol),
            }
            Some(Alternative { expected, ..*alternative })
        };
        expand(self.alternatives.iter().filter_map(go_on).collect())
    }

    /// Whether the bytes so far begin a document.
    pub fn begins(&self) -> bool {
        !self.alternatives.is_empty()
    }

    /// How many escapes the bytes so far have, if they are a document.
    pub fn document(&self) -> Option<usize> {
        let done = self.alternatives.iter().filter(|alternative| alternative.expected.is_empty());
        let mut counts = done.map(|alternative| alternative.escapes);
        let escapes = counts.next()?;
        assert!(counts.all(|other| other == escapes), "a document has one count of escapes");
        Some(escapes)
    }
}

/// Replaces what stands next by its rules until every alternative begins with a terminal or is done.
fn expand(mut open: Vec<Alternative>) -> Alive {
    let mut seen: HashSet<Alternative> = open.iter().cloned().collect();
    let mut alternatives = Vec::new();
    while let Some(alternative) = open.pop() {
        let (next, rest) = match alternative.expected.split_last() {
            Some((next, rest)) if !is_terminal(*next) => (*next, rest),
            _ => {
                alternatives.push(alternative);
                continue;
            }
        };
        let escapes = alternative.escapes + usize::from(next == Symbol::Escaped);
        for rule in rules(next) {
            let mut expected = rest.to_vec();
            expected.extend(rule.iter().rev());
            let replaced = Alternative { expected, escapes };
            if seen.insert(replaced.clone()) {
                open.push(replaced);
            }
        }
    }
    Alive { alternatives }
}

/// Numbers 2 to 5 for the bytes `taken`, which begin a document within the limit, and `byte` after them.
pub fn refused_at(taken: &[u8], byte: u8, unlimited: &Alive) -> Refusal {
    let mut through = taken.to_vec();
    through.push(byte);
    let number = if !begin_characters(&through) {
        CHAR
    } else if unlimited.after(byte).begins() {
        DEEP
    } else {
        SYNTAX
    };
    Refusal { number, place: taken.len() }
}

/// How many escapes a document has, or its number from 2 to 5 and its place.
pub fn answer(doc: &[u8], nesting: u32) -> Result<usize, Refusal> {
    let mut within = Alive::new(nesting);
    let mut unlimited = Alive::new(UNLIMITED);
    for (i, &byte) in doc.iter().enumerate() {
        let next = within.after(byte);
        if !next.begins() {
            return Err(refused_at(&doc[..i], byte, &unlimited));
        }
        within = next;
        unlimited = unlimited.after(byte);
    }
    within.document().ok_or(Refusal { number: END, place: doc.len() })
}

/// Whether a reader's answer is that of the slow checker, to which repeated keys do not matter.
pub fn agrees(slow: Result<usize, Refusal>, answer: Result<usize, Refusal>) -> bool {
    match answer {
        Err(Refusal { number: REPEAT, .. }) => slow.is_ok(),
        answer => answer == slow,
    }
}

//! Readers that are right but for the escapes that they tell.

use crate::compare::forms::{self, Form, Lines};
use crate::compare::{Reader, Said};
use crate::second::{Second, ROWS, TEXT, WORDS};

/// A row's kind and its backslashes.
type Met = (u32, Lines);

/// The escapes told of an accepted document.
type Count = fn(&[Met]) -> usize;

const COUNTS: [(&str, Count); 8] = [
    ("an escape in a key is not counted", |met| of_rows(met, |kind, _| kind != 10)),
    ("an escape in a value is not counted", |met| of_rows(met, |kind, _| kind == 10)),
    ("a backslash that stays is counted", |met| met.iter().map(|row| row.1.iter().flatten().count()).sum()),
    ("an escape in single quotes is not counted", |met| {
        of_rows(met, |_, form| matches!(form, Form::Letter | Form::Scalar))
    }),
    ("\\u{..} is not counted", |met| of_rows(met, |_, form| form != Form::Scalar)),
    ("a joined string counts its last line alone", |met| {
        met.iter().map(|row| forms::escapes(row.1.last().into_iter().flatten())).sum()
    }),
    ("a joined string counts its first line alone", |met| {
        met.iter().map(|row| forms::escapes(row.1.first().into_iter().flatten())).sum()
    }),
    ("the escapes of the last string are told for all", |met| {
        let last = met.iter().rfind(|row| !row.1.is_empty());
        last.map_or(0, |row| forms::escapes(row.1.iter().flatten()))
    }),
];

/// The escapes that are counted by their row's kind and their form.
fn of_rows(met: &[Met], counted: fn(u32, Form) -> bool) -> usize {
    let of_row = |row: &Met| forms::escapes(row.1.iter().flatten().filter(|form| counted(row.0, **form)));
    met.iter().map(of_row).sum()
}

/// A second reader whose answer is spoiled, by the document and, if it is accepted, its rows.
struct Spoiled<F> {
    second: Second,
    spoil: F,
}

impl<F: Fn(&mut Second, &[u8], &[u32], &mut Said)> Reader for Spoiled<F> {
    fn read(&mut self, doc: &[u8], table: &mut [u32], room: &mut [u8]) -> Said {
        let mut said = Said::from(self.second.read(doc, table, room));
        let rows = if said.number == 0 { said.values[0] } else { 0 };
        (self.spoil)(&mut self.second, doc, &table[..rows * WORDS], &mut said);
        said
    }
}

fn spoiled(spoil: impl Fn(&mut Second, &[u8], &[u32], &mut Said) + 'static) -> Box<dyn Reader> {
    Box::new(Spoiled { second: Second::new(), spoil })
}

fn miscounting(count: Count) -> Box<dyn Reader> {
    spoiled(move |_, doc, table, said| {
        if said.number == 0 {
            let met: Vec<Met> = table.chunks_exact(WORDS).map(|row| (row[0], forms::lines(doc, row))).collect();
            said.values[2] = count(&met);
        }
    })
}

pub fn faults() -> Vec<(&'static str, Box<dyn Reader>)> {
    let mut list: Vec<_> = COUNTS.iter().map(|&(name, count)| (name, miscounting(count))).collect();
    list.push((
        "escapes are told though a room is too small",
        spoiled(|second, doc, _, said| {
            if matches!(said.number, ROWS | TEXT) {
                said.values[2] = second.tree(doc).map_or(0, |(_, _, escapes)| escapes);
            }
        }),
    ));
    list.push((
        "the backslashes before a refusal's place are told",
        spoiled(|_, doc, _, said| {
            if (1..ROWS).contains(&said.number) {
                said.values[2] = doc[..said.values[0]].iter().filter(|byte| **byte == b'\\').count();
            }
        }),
    ));
    list
}

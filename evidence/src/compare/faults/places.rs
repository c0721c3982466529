//! Readers that are right but for the lines and columns of rows.

use crate::compare::places::{before, column, line, COLUMN, FROM, LINE};
use crate::compare::{Reader, Said};
use crate::second::{Second, WORDS};

/// Spoils a row of the document.
type Spoil = fn(&[u8], &mut [u32]);

/// The place in a row of the byte after its span.
const TO: usize = 2;

const SPOILS: [(&str, Spoil); 12] = [
    ("columns are counted in bytes", |doc, row| row[COLUMN] = 1 + before(doc, row[FROM] as usize).len() as u32),
    ("lines are counted from 0", |_, row| row[LINE] -= 1),
    ("columns are counted from 0", |_, row| row[COLUMN] -= 1),
    ("the line is that of the row's end", |doc, row| row[LINE] = line(doc, row[TO] as usize)),
    ("the column is that of the row's end", |doc, row| row[COLUMN] = column(doc, row[TO] as usize)),
    ("line and column are swapped", |_, row| row.swap(LINE, COLUMN)),
    ("comments before the root are no lines", |doc, row| {
        let comments = doc.split(|&byte| byte == b'\n').take_while(|line| line.starts_with(b"#")).count();
        row[LINE] -= comments as u32
    }),
    ("blank lines are not counted", |doc, row| {
        let lines = doc[..row[FROM] as usize].windows(2);
        row[LINE] -= lines.filter(|pair| pair == b"\n\n").count() as u32
    }),
    ("a character of four bytes is two columns", |doc, row| {
        row[COLUMN] = 1 + before(doc, row[FROM] as usize).encode_utf16().count() as u32
    }),
    ("a combining mark is no column", |doc, row| {
        row[COLUMN] -= before(doc, row[FROM] as usize).matches('\u{301}').count() as u32
    }),
    ("indentation is no column", |doc, row| {
        let before = before(doc, row[FROM] as usize);
        row[COLUMN] -= (before.len() - before.trim_start_matches(' ').len()) as u32
    }),
    ("an array or object has no line and column", |_, row| {
        if matches!(row[0], 8 | 9) {
            (row[LINE], row[COLUMN]) = (0, 0)
        }
    }),
];

struct Misplacing {
    second: Second,
    spoil: Spoil,
}

impl Reader for Misplacing {
    fn read(&mut self, doc: &[u8], table: &mut [u32], room: &mut [u8]) -> Said {
        let answer = self.second.read(doc, table, room);
        for row in table.chunks_exact_mut(WORDS).take(answer.map_or(0, |counts| counts.rows)) {
            (self.spoil)(doc, row);
        }
        answer.into()
    }
}

pub fn faults() -> Vec<(&'static str, Box<dyn Reader>)> {
    let misplacing = |&(name, spoil): &(&'static str, Spoil)| {
        let reader: Box<dyn Reader> = Box::new(Misplacing { second: Second::new(), spoil });
        (name, reader)
    };
    SPOILS.iter().map(misplacing).collect()
}

//! Deliberate faults in copies of the second reader, each of which the comparison has to find.

pub mod deciding;
mod escapes;
pub mod large;
pub mod overlaying;
mod places;
mod soundness;
pub mod storing;
pub mod writing;

use super::{Questions, Reader, Said, SecondQuestions};
use crate::second::questions::{Lent, BADROW, NONE};
use crate::second::{Answer, Refusal, Second, CHAR, LONG, LONGEST, REPEAT, ROWS, SYNTAX, TEXT, WORDS};
use std::ops::Range;

type Read = fn(&mut Second, &[u8], &mut [u32], &mut [u8]) -> Answer;

/// A second reader whose `read` is spoiled.
pub struct Faulty {
    pub name: &'static str,
    second: Second,
    read: Read,
}

impl Reader for Faulty {
    fn read(&mut self, doc: &[u8], table: &mut [u32], room: &mut [u8]) -> Said {
        (self.read)(&mut self.second, doc, table, room).into()
    }
}

const FAULTS: [(&str, Read); 18] = [
    ("one container more is let in", |_, doc, table, room| Second::with_nesting(33).read(doc, table, room)),
    ("a document without its last LF is let in", without_last_lf),
    ("a character broken off is SYNTAX", |second, doc, table, room| {
        second.read(doc, table, room).map_err(|no| {
            if no.number == CHAR && doc[no.place] < 0x80 {
                Refusal { number: SYNTAX, ..no }
            } else {
                no
            }
        })
    }),
    ("a space is refused before it is known what follows", |second, doc, table, room| {
        second.read(doc, table, room).map_err(|no| earlier(no, doc, b' '))
    }),
    ("a surrogate is refused at its last digit", |second, doc, table, room| {
        second.read(doc, table, room).map_err(|no| {
            if doc.get(no.place) == Some(&b'}') {
                earlier(no, doc, b'0')
            } else {
                no
            }
        })
    }),
    ("a backslash that stays is no part of the text", |second, doc, table, room| {
        rows(second, doc, table, room, |doc, table, row| {
            let from = table[row + 1] as usize;
            if doc[from..].starts_with(b"'\\") && !matches!(doc[from + 2], b'\'' | b'\\') {
                table[row + 3] += 1
            }
        })
    }),
    ("LF behind a backslash is let in", lf_behind_backslash),
    ("the longest document is LONG", |second, doc, table, room| {
        if doc.len() == LONGEST {
            Err(Refusal { number: LONG, place: 0 })
        } else {
            second.read(doc, table, room)
        }
    }),
    ("rows are looked at before repeated keys", |second, doc, table, room| {
        let no_rows = Refusal { number: ROWS, place: 3 };
        second.read(doc, table, room).map_err(|no| if no.number == REPEAT && table.is_empty() { no_rows } else { no })
    }),
    ("a key's last word is its value's", |second, doc, table, room| {
        rows(second, doc, table, room, |_, table, row| {
            if table[row] == 10 {
                table[row + 6] = table[row + WORDS + 6]
            }
        })
    }),
    ("a value's parent is its key", |second, doc, table, room| {
        rows(second, doc, table, room, |_, table, row| {
            if table[row] == 10 {
                table[row + WORDS + 5] = (row / WORDS) as u32
            }
        })
    }),
    ("an empty text stands at 0", |second, doc, table, room| {
        rows(second, doc, table, room, |_, table, row| {
            if table[row + 3] == table[row + 4] {
                (table[row + 3], table[row + 4]) = (0, 0)
            }
        })
    }),
    ("a block string's span has its last blanks", |second, doc, table, room| {
        rows(second, doc, table, room, |doc, table, row| {
            while doc[table[row + 1] as usize] == b'`' && doc.get(table[row + 2] as usize + 1) == Some(&b'\n') {
                table[row + 2] += 1
            }
        })
    }),
    ("an object counts its rows", |second, doc, table, room| {
        rows(second, doc, table, room, |_, table, row| {
            if table[row] == 9 {
                table[row + 4] *= 2
            }
        })
    }),
    ("a byte of text too many is written", |second, doc, table, room| {
        let counts = second.read(doc, table, room)?;
        if let Some(byte) = room.get_mut(counts.text) {
            *byte = 0
        }
        Ok(counts)
    }),
    ("rows are written though the text doesn't fit", |second, doc, table, room| {
        let answer = second.read(doc, table, room);
        if answer.is_err_and(|no| no.number == TEXT) {
            table[0] = 9
        }
        answer
    }),
    ("the rows needed are told as words", |second, doc, table, room| {
        second.read(doc, table, room).map_err(|no| {
            if no.number == ROWS {
                Refusal { place: no.place * WORDS, ..no }
            } else {
                no
            }
        })
    }),
    ("the table may be one word short", |second, doc, table, room| {
        let mut longer = table.to_vec();
        longer.push(0);
        let counts = second.read(doc, &mut longer, room)?;
        table.copy_from_slice(&longer[..table.len()]);
        Ok(counts)
    }),
];

/// All spoiled readers.
pub fn faults() -> Vec<(&'static str, Box<dyn Reader>)> {
    let read = |&(name, read): &(&'static str, Read)| {
        let reader: Box<dyn Reader> = Box::new(Faulty { name, second: Second::new(), read });
        (name, reader)
    };
    let mut list: Vec<_> = FAULTS.iter().map(read).collect();
    list.extend(escapes::faults());
    list.extend(places::faults());
    list.push((
        "integers are compared byte by byte",
        Box::new(FaultyQuestions { bytewise: true, second: Second::new() }),
    ));
    list.push(("a walk's defect is NONE", Box::new(FaultyQuestions { bytewise: false, second: Second::new() })));
    list
}

/// The refusal one byte earlier where that byte is `byte`.
fn earlier(no: Refusal, doc: &[u8], byte: u8) -> Refusal {
    if no.number == SYNTAX && no.place > 0 && doc[no.place - 1] == byte {
        return Refusal { place: no.place - 1, ..no };
    }
    no
}

fn without_last_lf(second: &mut Second, doc: &[u8], table: &mut [u32], room: &mut [u8]) -> Answer {
    if doc.last().is_none_or(|&byte| byte == b'\n') || doc.len() >= LONGEST {
        return second.read(doc, table, room);
    }
    let ended = [doc, b"\n"].concat();
    second.read(&ended, table, room).or_else(|_| second.read(doc, table, room))
}

/// Reads an LF that is refused behind a backslash as a space, which may stand there in single quotes.
fn lf_behind_backslash(second: &mut Second, doc: &[u8], table: &mut [u32], room: &mut [u8]) -> Answer {
    let no = match second.read(doc, table, room) {
        Err(no) if no.number == SYNTAX && doc[..=no.place].ends_with(b"\\\n") => no,
        answer => return answer,
    };
    let mut let_in = doc.to_vec();
    let_in[no.place] = b' ';
    second.read(&let_in, table, room)
}

/// Spoils each row of an accepted document, the last first.
fn rows(
    second: &mut Second,
    doc: &[u8],
    table: &mut [u32],
    room: &mut [u8],
    spoil: fn(&[u8], &mut [u32], usize),
) -> Answer {
    let counts = second.read(doc, table, room)?;
    for row in (0..counts.rows).rev() {
        spoil(doc, table, row * WORDS);
    }
    Ok(counts)
}

struct FaultyQuestions {
    bytewise: bool,
    second: Second,
}

impl Reader for FaultyQuestions {
    fn read(&mut self, doc: &[u8], table: &mut [u32], room: &mut [u8]) -> Said {
        self.second.read(doc, table, room).into()
    }

    fn questions(&self) -> Option<&dyn Questions> {
        Some(self)
    }
}

impl Questions for FaultyQuestions {
    fn row_text(&self, lent: &Lent, row: usize) -> Result<Range<usize>, u32> {
        lent.row_text(row)
    }

    fn find_key(&self, lent: &Lent, object: usize, key: &[u8]) -> Result<usize, u32> {
        let is_object = object < lent.rows && lent.table.get(object * WORDS) == Some(&9);
        lent.find_key(object, key).map_err(|no| if no == BADROW && is_object && !self.bytewise { NONE } else { no })
    }

    fn compare_integers(&self, left: &[u8], right: &[u8]) -> Result<i32, u32> {
        let order = SecondQuestions.compare_integers(left, right)?;
        Ok(if self.bytewise { left.cmp(right) as i32 } else { order })
    }
}

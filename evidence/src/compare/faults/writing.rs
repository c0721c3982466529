//! Writers that are right but for one thing: their style, their answer, or the test of soundness beside them.

use super::soundness::{self, is_sound, Sound};
use crate::compare::writing::{number, Writer};
use crate::compare::{Reader, Said};
use crate::second::questions::{Lent, BADROW};
use crate::second::sound::Test;
use crate::second::write::{self, in_style, is_allowed, put_quoted, Style, HOUSE};
use crate::second::{Second, LONG, LONGEST, TEXT};

type Write = Box<dyn Fn(&Lent, &mut [u8]) -> (u32, usize) + Send + Sync>;

/// A second writer whose test of soundness or whose answer is spoiled.
struct Faulty {
    second: Second,
    sound: Sound,
    write: Write,
}

impl Reader for Faulty {
    fn read(&mut self, doc: &[u8], table: &mut [u32], room: &mut [u8]) -> Said {
        self.second.read(doc, table, room).into()
    }
}

impl Writer for Faulty {
    fn sound(&self, lent: &Lent) -> u32 {
        number((self.sound)(lent))
    }

    fn write(&self, lent: &Lent, out: &mut [u8]) -> (u32, usize) {
        (self.write)(lent, out)
    }
}

fn answer(lent: &Lent, out: &mut [u8]) -> (u32, usize) {
    Second::new().write(lent, out)
}

fn unsound(sound: Sound) -> Box<dyn Writer> {
    Box::new(Faulty { second: Second::new(), sound, write: Box::new(answer) })
}

fn unwritten(write: Write) -> Box<dyn Writer> {
    Box::new(Faulty { second: Second::new(), sound: Box::new(is_sound), write })
}

/// Other styles than the house's.
const STYLES: [(&str, Style); 14] = [
    ("a key that needs quotes is written bare", Style { bare: |key| !key.is_empty(), ..HOUSE }),
    ("the empty key is written bare", Style { bare: |key| key.is_empty() || write::is_bare(key), ..HOUSE }),
    ("every key is quoted", Style { bare: |_| false, ..HOUSE }),
    (
        "a key that looks like a number is quoted",
        Style { bare: |key| write::is_bare(key) && !key[0].is_ascii_digit(), ..HOUSE },
    ),
    ("a key that is a keyword is quoted", Style { bare: |key| write::is_bare(key) && key != b"null", ..HOUSE }),
    (
        "\\u{..} has a leading zero",
        Style { quoted: |one, out| quoted(one, out, |code| format!("\\u{{{code:02x}}}")), ..HOUSE },
    ),
    (
        "\\u{..} has large letters",
        Style { quoted: |one, out| quoted(one, out, |code| format!("\\u{{{code:X}}}")), ..HOUSE },
    ),
    (
        "a lettered escape is written as \\u{..}",
        Style {
            quoted: |one, out| if one == '\u{c}' { out.push_str("\\u{c}") } else { put_quoted(one, out) },
            ..HOUSE
        },
    ),
    (
        "a slash is escaped",
        Style { quoted: |one, out| if one == '/' { out.push_str("\\/") } else { put_quoted(one, out) }, ..HOUSE },
    ),
    ("every character is written as itself", Style { quoted: |one, out| out.push(one), ..HOUSE }),
    ("bytes have spaces", Style { bytes: |bytes| write::hex(bytes).replace("00", "00 ").trim_end().into(), ..HOUSE }),
    ("an array in an array is a block", Style { one_line: false, ..HOUSE }),
    ("one element is written inline", Style { block: |children| children > 1, ..HOUSE }),
    ("a level is four spaces", Style { level: 4, ..HOUSE }),
];

/// A character between quotes, where one that no document may have is written otherwise.
fn quoted(one: char, out: &mut String, otherwise: fn(u32) -> String) {
    if is_allowed(one) || matches!(one, '\u{8}' | '\t' | '\n' | '\u{c}' | '\r') {
        put_quoted(one, out);
    } else {
        out.push_str(&otherwise(u32::from(one)));
    }
}

fn styled(style: Style) -> Box<dyn Writer> {
    unwritten(Box::new(move |lent, out| {
        if !is_sound(lent) {
            return (BADROW, 0);
        }
        let doc = in_style(lent, &style);
        match doc.len() {
            count if count > LONGEST => (LONG, 0),
            count if count > out.len() => (TEXT, count),
            count => {
                out[..count].copy_from_slice(&doc);
                (0, count)
            }
        }
    }))
}

type Answer = fn(&Lent, &mut [u8]) -> (u32, usize);

const ANSWERS: [(&str, Answer); 8] = [
    ("LONG is told with the bytes", |lent, out| match answer(lent, out) {
        (LONG, _) => (LONG, in_style(lent, &HOUSE).len()),
        other => other,
    }),
    ("TEXT is looked at before LONG", |lent, out| match answer(lent, out) {
        (LONG, _) if out.len() <= LONGEST => (TEXT, in_style(lent, &HOUSE).len()),
        other => other,
    }),
    ("the longest document is LONG", |lent, out| match answer(lent, out) {
        (0, LONGEST) => (LONG, 0),
        other => other,
    }),
    ("an output too short is told with what it has", |lent, out| match answer(lent, out) {
        (TEXT, _) => (TEXT, out.len()),
        other => other,
    }),
    ("an output too short is filled", |lent, out| {
        let said = answer(lent, out);
        if said.0 == TEXT {
            let doc = in_style(lent, &HOUSE);
            let most = out.len();
            out.copy_from_slice(&doc[..most]);
        }
        said
    }),
    ("a byte too many is written", |lent, out| {
        let said = answer(lent, out);
        if let (0, Some(byte)) = (said.0, out.get_mut(said.1)) {
            *byte = 0;
        }
        said
    }),
    ("an output of one byte too few is enough", |lent, out| match answer(lent, out) {
        (TEXT, count) if count == out.len() + 1 => (0, count),
        other => other,
    }),
    ("a table that is not sound is written as null", |lent, out| match answer(lent, out) {
        (BADROW, _) if out.len() > 4 && lent.rows > 0 => {
            out[..5].copy_from_slice(b"null\n");
            (0, 5)
        }
        other => other,
    }),
];

/// All of them, and those of soundness alone.
pub fn faults() -> Vec<(String, Box<dyn Writer>)> {
    let spoiled = |(name, sound): (String, Sound)| (name, unsound(sound));
    let mut list: Vec<_> = soundness::faults().into_iter().map(spoiled).collect();
    list.extend(STYLES.iter().map(|&(name, style)| (name.to_string(), styled(style))));
    list.extend(ANSWERS.iter().map(|&(name, answer)| (name.to_string(), unwritten(Box::new(answer)))));
    list
}

/// A test of soundness that passes over one thing.
pub fn passed_over(test: Test) -> Box<dyn Writer> {
    unsound(soundness::passed_over(test))
}

//! Tests of soundness that pass over one thing, or are too narrow or too wide in another.

use crate::second::questions::Lent;
use crate::second::sound::{used, Test, TESTS};
use crate::second::WORDS;
use crate::tables::Table;

pub type Sound = Box<dyn Fn(&Lent) -> bool + Send + Sync>;

pub fn is_sound(lent: &Lent) -> bool {
    used(lent, None).is_some()
}

/// What is asked of a table.
type Asked = fn(&Lent) -> bool;

fn rows<'a>(lent: &Lent<'a>) -> impl Iterator<Item = (&'a [u32], &'a [u8])> {
    let (text, table) = (lent.text, &lent.table[..lent.rows * WORDS]);
    let text = move |row: &[u32]| match row[0] {
        4..=7 | 10 => &text[row[3] as usize..row[4] as usize],
        _ => &text[..0],
    };
    table.chunks_exact(WORDS).map(move |row| (row, text(row)))
}

/// Too narrow tests: which sound tables they take for none.
const NARROW: [(&str, Asked); 13] = [
    ("a room longer than the text is not sound", |lent| used(lent, None) != Some(lent.text.len())),
    ("a table longer than its rows is not sound", |lent| lent.table.len() != lent.rows * WORDS),
    ("U+0000 in a string is not sound", |lent| rows(lent).any(|(row, text)| row[0] == 6 && text.contains(&0))),
    ("a noncharacter is not sound", |lent| {
        rows(lent).any(|(row, text)| row[0] == 6 && String::from_utf8_lossy(text).contains(['\u{fdd0}', '\u{ffff}']))
    }),
    ("a control in a key is not sound", |lent| {
        rows(lent).any(|(row, text)| row[0] == 10 && text.iter().any(u8::is_ascii_control))
    }),
    ("the empty key is not sound", |lent| rows(lent).any(|(row, text)| row[0] == 10 && text.is_empty())),
    ("an empty text stands at 0", |lent| rows(lent).any(|(row, text)| row[0] == 6 && text.is_empty() && row[3] > 0)),
    ("a float has digits before its point", |lent| {
        rows(lent).any(|(row, text)| row[0] == 5 && (text.starts_with(b".") || text.starts_with(b"-.")))
    }),
    ("a float has no leading zeros", |lent| rows(lent).any(|(row, text)| row[0] == 5 && text.starts_with(b"00"))),
    ("lines are looked at", |lent| rows(lent).any(|(row, _)| row[7] == 0)),
    ("spans are looked at", |lent| rows(lent).any(|(row, _)| row[1] > row[2])),
    ("a key stands once in all objects", |lent| {
        let mut keys: Vec<_> = rows(lent).filter(|(row, _)| row[0] == 10).map(|(_, text)| text).collect();
        keys.sort();
        keys.windows(2).any(|pair| pair[0] == pair[1])
    }),
    ("32 levels are not sound", |lent| used(&inside(lent).lent(), None).is_none()),
];

/// Too wide tests.
const WIDE: [(&str, Asked); 3] = [
    ("counts are not looked at", |lent| used(&counted(lent).lent(), None).is_some()),
    ("the root's parent is not looked at", |lent| {
        let mut table = lent.table.to_vec();
        table.get_mut(5).into_iter().for_each(|parent| *parent = 0);
        used(&Lent { table: &table, ..*lent }, None).is_some()
    }),
    ("a key is compared with the one before it alone", |lent| {
        let mut last = std::collections::HashMap::new();
        used(lent, Some(Test::Repeat)).is_some()
            && rows(lent).filter(|(row, _)| row[0] == 10).all(|(row, key)| last.insert(row[5], key) != Some(key))
    }),
];

/// The table with the counts that its rows' parents give.
fn counted(lent: &Lent) -> Table {
    let rows = lent.rows.min(lent.table.len() / WORDS);
    let mut words = lent.table.to_vec();
    for row in 0..rows {
        let children = (1..rows).filter(|child| words[child * WORDS + 5] == row as u32).count() as u32;
        match words[row * WORDS] {
            8 => words[row * WORDS + 4] = children,
            9 => words[row * WORDS + 4] = children / 2,
            _ => {}
        }
    }
    Table { words, rows: lent.rows, text: lent.text.to_vec(), sound: None }
}

/// The table as the one element of an array.
fn inside(lent: &Lent) -> Table {
    let next = lent.rows as u32 + 1;
    let mut words = vec![8, 0, 0, 0, 1, 0, next, 0, 0];
    for (row, _) in rows(lent) {
        let at = words.len();
        words.extend_from_slice(row);
        words[at + 5] = if at == WORDS { 0 } else { row[5] + 1 };
        words[at + 6] = row[6] + 1;
    }
    Table { words, rows: lent.rows + 1, text: lent.text.to_vec(), sound: None }
}

pub fn passed_over(test: Test) -> Sound {
    Box::new(move |lent| used(lent, Some(test)).is_some())
}

/// All but the limit of rows and text bytes, which is tried apart since it takes large tables.
pub fn faults() -> Vec<(String, Sound)> {
    let tests = TESTS.iter().filter(|(test, _)| *test != Test::Most);
    let mut list: Vec<(String, Sound)> =
        tests.map(|&(test, what)| (format!("passed over: {what}"), passed_over(test))).collect();
    let narrow = |&(name, refused): &(&str, Asked)| -> (String, Sound) {
        (name.to_string(), Box::new(move |lent| is_sound(lent) && !refused(lent)))
    };
    list.extend(NARROW.iter().map(narrow));
    list.extend(WIDE.iter().map(|&(name, taken)| -> (String, Sound) { (name.to_string(), Box::new(taken)) }));
    list
}

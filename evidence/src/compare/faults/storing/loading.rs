//! Loadings that take other bytes for stored forms, give other rows, or tell them otherwise.

use super::Spoil;
use crate::second::sound::{used, Test};
use crate::second::stored::{lent, load, stored_so, taken, Loaded, Told, Ways, BADFORM, WAYS, WIDEST};
use crate::second::{ROWS, WORDS};

/// By which bytes are loaded.
#[derive(Clone, Copy)]
pub struct Rules {
    /// A test of soundness that is passed over.
    pub but: Option<Test>,
    /// The rows that the heads tell.
    pub taken: fn(&[u8]) -> Option<Loaded>,
    /// What else is refused.
    pub refused: fn(&Loaded) -> bool,
    /// Whether the table must be stored as the same bytes, or only be sound.
    pub same: bool,
    /// Other ways in which contents may be cut.
    pub ways: Option<Ways>,
}

pub const RULES: Rules = Rules { but: None, taken, refused: |_| false, same: true, ways: None };

pub fn loaded_by(rules: &Rules, bytes: &[u8]) -> Result<Loaded, u32> {
    let loaded = (rules.taken)(bytes).ok_or(BADFORM)?;
    let is_form = match rules.same {
        true => [Some(WAYS), rules.ways].into_iter().flatten().any(|ways| {
            let form = stored_so(&lent(&loaded), rules.but, &ways);
            form.is_ok_and(|form| form == bytes)
        }),
        false => used(&lent(&loaded), rules.but).is_some(),
    };
    if is_form && !(rules.refused)(&loaded) {
        Ok(loaded)
    } else {
        Err(BADFORM)
    }
}

fn rows(loaded: &Loaded) -> impl Iterator<Item = &[u32]> {
    loaded.words.chunks(WORDS)
}

fn text<'a>(loaded: &'a Loaded, row: &[u32]) -> &'a [u8] {
    match row[0] {
        4..=7 | 10 => &loaded.text[row[3] as usize..row[4] as usize],
        _ => b"",
    }
}

const fn but(test: Test) -> Rules {
    Rules { but: Some(test), ..RULES }
}

const fn refused(refused: fn(&Loaded) -> bool) -> Rules {
    Rules { refused, ..RULES }
}

/// Tests that are passed over, and such that are too narrow.
pub const TESTS: [(&str, Rules); 17] = [
    ("a repeated key is loaded", but(Test::Repeat)),
    ("33 levels are loaded", but(Test::Nesting)),
    ("the integer -0 is loaded", but(Test::MinusZero)),
    ("an integer with a leading zero is loaded", but(Test::LeadingZero)),
    ("an integer that is no digits is loaded", but(Test::Digits)),
    ("a float that is none is loaded", but(Test::Float)),
    ("a string that is no UTF-8 is loaded", but(Test::String)),
    ("a key that is no UTF-8 is loaded", but(Test::KeyString)),
    ("a tag that no value has is loaded", but(Test::Kind)),
    ("32 levels are not loaded", refused(|loaded| deepest(loaded) == 32)),
    ("an empty container is not loaded", refused(|loaded| rows(loaded).any(|row| row[0] == 8 && row[4] == 0))),
    ("an empty string is not loaded", refused(|loaded| rows(loaded).any(|row| row[0] == 6 && row[3] == row[4]))),
    ("the empty key is not loaded", refused(|loaded| rows(loaded).any(|row| row[0] == 10 && row[3] == row[4]))),
    ("U+0000 is not loaded", refused(|loaded| rows(loaded).any(|row| row[0] == 6 && text(loaded, row).contains(&0)))),
    (
        "bytes must be UTF-8",
        refused(|loaded| rows(loaded).any(|row| row[0] == 7 && std::str::from_utf8(text(loaded, row)).is_err())),
    ),
    (
        "a key stands once in all objects",
        refused(|loaded| {
            let mut keys: Vec<_> = rows(loaded).filter(|row| row[0] == 10).map(|row| text(loaded, row)).collect();
            keys.sort();
            keys.windows(2).any(|pair| pair[0] == pair[1])
        }),
    ),
    ("a root that is no container is not loaded", refused(|loaded| loaded.words[0] < 8)),
];

/// How many containers stand one inside another at most.
fn deepest(loaded: &Loaded) -> usize {
    let mut depths: Vec<usize> = Vec::new();
    for (i, row) in rows(loaded).enumerate() {
        let around = if i == 0 { 0 } else { depths[row[5] as usize] };
        depths.push(around + usize::from(matches!(row[0], 8 | 9)));
    }
    depths.into_iter().max().unwrap_or(0)
}

/// Heads that are taken otherwise.
pub const TAKING: [(&str, Rules); 11] = [
    ("null, false and true may have a content", Rules { same: false, ..RULES }),
    ("bytes behind the field are passed over", Rules { taken: first, same: false, ..RULES }),
    (
        "no bytes are loaded as null",
        Rules { taken: |bytes| if bytes.is_empty() { taken(b"\x01\0\0") } else { taken(bytes) }, same: false, ..RULES },
    ),
    ("a field may end behind its container", Rules { taken: mended, same: false, ..RULES }),
    ("the low byte comes first", Rules { taken: |bytes| taken(&turned(bytes)?), same: false, ..RULES }),
    ("tag 11 is a key", Rules { taken: |bytes| taken(&tagged(bytes, 11, 10)), same: false, ..RULES }),
    ("tag 0 is null", Rules { taken: |bytes| taken(&tagged(bytes, 0, 1)), same: false, ..RULES }),
    ("parts of 65,534 bytes are taken", Rules { ways: Some(Ways { part: WIDEST - 1, ..WAYS }), ..RULES }),
    ("an empty end behind a part is taken", Rules { ways: Some(Ways { most: WIDEST - 1, ..WAYS }), ..RULES }),
    ("a root in parts is not taken", Rules { taken: |bytes| taken(bytes).filter(|_| bytes[0] != 11), ..RULES }),
    ("a string may stand for a key", Rules { taken: keyed, same: false, ..RULES }),
];

fn length(bytes: &[u8], at: usize) -> Option<usize> {
    let [_, high, low] = *bytes.get(at..)?.first_chunk()?;
    Some(usize::from(high) << 8 | usize::from(low))
}

fn first(bytes: &[u8]) -> Option<Loaded> {
    let end = 3 + length(bytes, 0)?;
    taken(bytes.get(..end)?)
}

/// The root is as long as the bytes are.
fn mended(bytes: &[u8]) -> Option<Loaded> {
    let mut bytes = bytes.to_vec();
    let content = bytes.len().checked_sub(3).filter(|content| *content <= WIDEST)? as u16;
    bytes[1..3].copy_from_slice(&content.to_be_bytes());
    taken(&bytes)
}

/// Where heads stand, as far as they can be followed.
fn heads(bytes: &[u8]) -> Vec<usize> {
    let (mut list, mut at) = (Vec::new(), 0);
    while let Some(content) = length(bytes, at) {
        list.push(at);
        at += if matches!(bytes[at], 8 | 9) { 3 } else { 3 + content };
    }
    list
}

/// Both bytes of the first length exchanged.
fn turned(bytes: &[u8]) -> Option<Vec<u8>> {
    length(bytes, 0)?;
    let mut bytes = bytes.to_vec();
    bytes.swap(1, 2);
    Some(bytes)
}

fn tagged(bytes: &[u8], from: u8, to: u8) -> Vec<u8> {
    let mut bytes = bytes.to_vec();
    for at in heads(&bytes) {
        if bytes[at] == from {
            bytes[at] = to;
        }
    }
    bytes
}

/// In an object of one pair a string is taken for its key.
fn keyed(bytes: &[u8]) -> Option<Loaded> {
    let mut bytes = bytes.to_vec();
    if let ([9, _, _, 6, ..], [0, 3, ..]) = (&bytes[..], &heads(&bytes)[..]) {
        bytes[3] = 10;
    }
    taken(&bytes)
}

fn each_row(loaded: &mut Loaded, spoil: impl FnMut(&mut [u32])) {
    loaded.words.chunks_mut(WORDS).for_each(spoil);
}

/// Each row but the root with where a span before it ends, or its parent's first head does, and where the one behind it
/// begins, or its parent's span ends.
fn siblings(loaded: &mut Loaded, spoil: impl Fn(u32, &mut [u32], u32)) {
    let old = loaded.words.clone();
    let row = |i: usize| &old[i * WORDS..][..WORDS];
    for i in 1..old.len() / WORDS {
        let parent = row(i)[5] as usize;
        let (next, last) = (row(i)[6] as usize, row(parent)[6] as usize);
        let before = (parent + 1..i).rev().find(|j| row(*j)[5] as usize == parent && row(*j)[6] as usize == i);
        let before = before.map_or(row(parent)[1] + 3, |j| row(j)[2]);
        let behind = if next < last { row(next)[1] } else { row(parent)[2] };
        spoil(before, &mut loaded.words[i * WORDS..][..WORDS], behind);
    }
}

/// Other rows.
pub const RESULTS: [(&str, Spoil); 16] = [
    ("spans begin at the content", |loaded| each_row(loaded, |row| row[1] += 3)),
    ("spans end before the content", |loaded| each_row(loaded, |row| row[2] = row[1] + 3)),
    ("spans are zero", |loaded| each_row(loaded, |row| (row[1], row[2]) = (0, 0))),
    ("a cut just before a field counts in its span", |loaded| siblings(loaded, |before, row, _| row[1] = before)),
    ("a cut just behind a field counts in its span", |loaded| siblings(loaded, |_, row, behind| row[2] = behind)),
    ("cuts inside a field don't count in its span", |loaded| {
        let text = |row: &[u32]| if matches!(row[0], 4..=7 | 10) { row[4] - row[3] } else { 0 };
        each_row(loaded, |row| {
            let (content, parts) = (text(row), text(row).saturating_sub(1) / WIDEST as u32);
            if row[0] < 8 || row[0] == 10 {
                row[2] = row[1] + content + 3 * (parts + 1);
            }
        })
    }),
    ("spans are places in the content of the root", |loaded| {
        let of_root = |place: u32| place - place / (WIDEST as u32 + 3) * 3;
        each_row(loaded, |row| (row[1], row[2]) = (of_root(row[1]), of_root(row[2])))
    }),
    ("the root's span has no head", |loaded| loaded.words[2] -= 3),
    ("rows have the line 1", |loaded| each_row(loaded, |row| row[7] = 1)),
    ("rows have a column", |loaded| each_row(loaded, |row| row[8] = row[1] + 1)),
    ("objects count their rows", |loaded| each_row(loaded, |row| row[4] *= if row[0] == 9 { 2 } else { 1 })),
    ("an empty text stands at 0", |loaded| {
        each_row(loaded, |row| {
            if row[3] == row[4] && matches!(row[0], 4..=7 | 10) {
                (row[3], row[4]) = (0, 0)
            }
        })
    }),
    ("a key's next row is its value's", |loaded| {
        for row in (0..loaded.words.len()).step_by(WORDS) {
            if loaded.words[row] == 10 {
                loaded.words[row + 6] = loaded.words[row + WORDS + 6];
            }
        }
    }),
    ("a value's parent is its key", |loaded| {
        for row in (WORDS..loaded.words.len()).step_by(WORDS) {
            if loaded.words[row - WORDS] == 10 {
                loaded.words[row + 5] = (row / WORDS) as u32 - 1;
            }
        }
    }),
    ("texts keep their place in the stored bytes", |loaded| {
        each_row(loaded, |row| {
            if matches!(row[0], 4..=7 | 10) {
                (row[3], row[4]) = (row[1] + 3, row[2])
            }
        })
    }),
    ("the text has a byte too many", |loaded| loaded.text.push(0)),
];

/// Other answers.
pub const ANSWERS: [(&str, fn(&[u8], &mut [u32], &mut [u8]) -> Told); 5] = [
    ("BADFORM has a place", |bytes, table, text| match load(bytes, table, text) {
        (BADFORM, ..) => (BADFORM, bytes.len(), 0),
        said => said,
    }),
    ("BADFORM is told as BADROW", |bytes, table, text| match load(bytes, table, text) {
        (BADFORM, ..) => (9, 0, 0),
        said => said,
    }),
    ("ROWS comes before BADFORM", |bytes, table, text| match load(bytes, table, text) {
        (BADFORM, ..) if table.is_empty() => (ROWS, 1, 0),
        said => said,
    }),
    ("rows are written before all bytes are tested", |bytes, table, text| {
        let said = load(bytes, table, text);
        if let (BADFORM, Some(row)) = (said.0, table.first_chunk_mut::<WORDS>()) {
            row[0] = bytes.first().map_or(0, |tag| u32::from(*tag));
        }
        said
    }),
    ("text is written before all bytes are tested", |bytes, table, text| {
        let said = load(bytes, table, text);
        if let (BADFORM, Some(byte)) = (said.0, text.first_mut()) {
            *byte = 0;
        }
        said
    }),
];

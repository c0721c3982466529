//! The stored form, made from document 02 apart from the proved functions. A table is stored from the inside out: the fields
//! of a container's children are its content, and a content over 65,535 bytes is cut once it is whole. Bytes are loaded by
//! joining the parts of each content as a list of places, and taking the rows that the heads there tell, whatever they are;
//! they are a stored form exactly if that table is sound and is stored as the same bytes.

pub use super::overlay::{fill, told, Laid as Loaded, Told};
use super::questions::{Lent, BADROW};
use super::sound::{used, Test};
use super::tree::{ARRAY, BYTES, INTEGER, KEY, NEXT, OBJECT, TEXT_FROM, TEXT_TO};
use super::{MOST, NESTING, TEXT, WORDS};
use std::borrow::Cow;

pub const BADFORM: u32 = 13;

/// The most bytes of one field.
pub const WIDEST: usize = 65_535;
/// The bytes of a tag and a length.
pub const HEAD: usize = 3;
/// The tag of a part that others follow.
pub const PART: u8 = 11;

/// Tag and length, high byte first.
pub type Head = fn(u8, usize) -> [u8; HEAD];

pub fn head(tag: u8, length: usize) -> [u8; HEAD] {
    [tag, (length >> 8) as u8, length as u8]
}

/// How contents are cut.
#[derive(Clone, Copy)]
pub struct Ways {
    /// The bytes of a part.
    pub part: usize,
    /// While more than so many bytes remain, there is a part.
    pub most: usize,
    pub head: Head,
}

pub const WAYS: Ways = Ways { part: WIDEST, most: WIDEST, head };

impl Ways {
    /// A content in its parts, the last under the true tag.
    pub fn cut(&self, tag: u8, content: &[u8], bytes: &mut Vec<u8>) {
        let mut left = content;
        while left.len() > self.most {
            let (part, behind) = left.split_at(self.part);
            bytes.extend((self.head)(PART, part.len()));
            bytes.extend_from_slice(part);
            left = behind;
        }
        bytes.extend((self.head)(tag, left.len()));
        bytes.extend_from_slice(left);
    }
}

/// Stores a table: 0 and the bytes stored; TEXT and the bytes needed; BADROW and 0.
pub fn store(lent: &Lent, out: &mut [u8]) -> (u32, usize) {
    put(&stored(lent), out)
}

/// Puts a stored form into an output, if that is large enough.
pub fn put(stored: &Result<Vec<u8>, u32>, out: &mut [u8]) -> (u32, usize) {
    match stored {
        Err(number) => (*number, 0),
        Ok(bytes) if bytes.len() > out.len().min(MOST) => (TEXT, bytes.len()),
        Ok(bytes) => {
            out[..bytes.len()].copy_from_slice(bytes);
            (0, bytes.len())
        }
    }
}

/// The stored form of a table, or BADROW.
pub fn stored(lent: &Lent) -> Result<Vec<u8>, u32> {
    stored_so(lent, None, &WAYS)
}

/// The same, where a test of soundness is passed over, and contents are cut in such ways.
pub fn stored_so(lent: &Lent, but: Option<Test>, ways: &Ways) -> Result<Vec<u8>, u32> {
    used(lent, but).ok_or(BADROW)?;
    let mut bytes = Vec::new();
    field(lent, 0, ways, &mut bytes);
    Ok(bytes)
}

/// The field of a row, behind what is there.
fn field(lent: &Lent, row: usize, ways: &Ways, bytes: &mut Vec<u8>) {
    let words = &lent.table[row * WORDS..][..WORDS];
    let at = bytes.len();
    match words[0] {
        INTEGER..=BYTES | KEY => {
            return ways.cut(words[0] as u8, &lent.text[words[TEXT_FROM] as usize..words[TEXT_TO] as usize], bytes)
        }
        ARRAY | OBJECT => {
            let mut child = row + 1;
            while child < words[NEXT] as usize {
                field(lent, child, ways, bytes);
                child = lent.table[child * WORDS + NEXT] as usize;
            }
        }
        _ => {}
    }
    let content = bytes.split_off(at);
    ways.cut(words[0] as u8, &content, bytes);
}

/// Loads stored bytes into rooms: 0, rows and text bytes; ROWS or TEXT, the need and 0; BADFORM, 0 and 0.
pub fn load(bytes: &[u8], table: &mut [u32], text: &mut [u8]) -> Told {
    fill(&loaded(bytes), table, text)
}

/// The same in rooms of its own, or BADFORM.
pub fn loaded(bytes: &[u8]) -> Result<Loaded, u32> {
    let taken = taken(bytes).filter(|_| bytes.len() <= MOST).ok_or(BADFORM)?;
    if stored(&lent(&taken)).as_deref() == Ok(bytes) {
        Ok(taken)
    } else {
        Err(BADFORM)
    }
}

pub fn lent(loaded: &Loaded) -> Lent<'_> {
    Lent { table: &loaded.words, rows: loaded.words.len() / WORDS, text: &loaded.text }
}

/// The rows that heads tell, whatever tags, lengths of parts and texts are; nothing where a field ends behind the one around
/// it, one field is not all, or levels are too many.
pub fn taken(bytes: &[u8]) -> Option<Loaded> {
    let mut taking = Taking { bytes, rows: Vec::new(), text: Vec::new() };
    let places: Vec<u32> = (0..bytes.len() as u32).collect();
    let behind = taking.field(&places, 0, 0)?;
    behind.is_empty().then(|| Loaded { words: taking.rows.concat(), text: taking.text })
}

/// Contents are lists of the places where their bytes stand.
struct Taking<'a> {
    bytes: &'a [u8],
    rows: Vec<[u32; WORDS]>,
    text: Vec<u8>,
}

impl Taking<'_> {
    /// Takes the first of fields that follow one another; what is behind it.
    fn field<'p>(&mut self, places: &'p [u32], parent: usize, depth: usize) -> Option<&'p [u32]> {
        if depth > NESTING + 1 {
            return None;
        }
        let (tag, content, behind) = self.joined(places)?;
        let (row, kind) = (self.rows.len(), u32::from(tag));
        // Of an object the keys are counted.
        if row > 0 && (self.rows[parent][0] == ARRAY || kind == KEY) {
            self.rows[parent][TEXT_TO] += 1;
        }
        let last = places[places.len() - behind.len() - 1];
        self.rows.push([kind, places[0], last + 1, 0, 0, parent as u32, 0, 0, 0]);
        if matches!(kind, ARRAY | OBJECT) {
            let mut left = &content[..];
            while !left.is_empty() {
                left = self.field(left, row, depth + 1)?;
            }
        }
        if matches!(kind, INTEGER..=BYTES | KEY) {
            self.rows[row][TEXT_FROM] = self.text.len() as u32;
            self.text.extend(content.iter().map(|place| self.bytes[*place as usize]));
            self.rows[row][TEXT_TO] = self.text.len() as u32;
        }
        self.rows[row][NEXT] = self.rows.len() as u32;
        Some(behind)
    }

    /// The true tag of the first field, its content out of all its parts, and what is behind it.
    fn joined<'p>(&self, places: &'p [u32]) -> Option<(u8, Cow<'p, [u32]>, &'p [u32])> {
        let mut content = Cow::Borrowed(&[][..]);
        let mut left = places;
        loop {
            let (head, behind) = left.split_first_chunk::<HEAD>()?;
            let [tag, high, low] = head.map(|place| self.bytes[place as usize]);
            let (part, behind) = behind.split_at_checked(usize::from(high) * 256 + usize::from(low))?;
            match content.is_empty() {
                true => content = Cow::Borrowed(part),
                false => content.to_mut().extend_from_slice(part),
            }
            if tag != PART {
                return Some((tag, content, behind));
            }
            left = behind;
        }
    }
}

//! One table laid over another, made from document 02 apart from the proved overlay: both are turned into trees, the trees
//! into one, and that into rows.

use super::questions::{Lent, BADROW};
use super::sound::sound;
use super::tree::{ARRAY, BYTES, INTEGER, KEY, OBJECT, TEXT_FROM, TEXT_TO};
use super::{MOST, NESTING, ROWS, TEXT, WORDS};
use std::borrow::Cow;
use std::collections::HashMap;

pub const CLASH: u32 = 16;

/// A value with all that is below it. A leaf has its kind and text.
#[derive(Clone, PartialEq, Eq, Debug)]
pub enum Value<'a> {
    Leaf(u32, &'a [u8]),
    Array(Vec<Value<'a>>),
    Object(Pairs<'a>),
}

pub type Pairs<'a> = Vec<(&'a [u8], Value<'a>)>;

impl Value<'_> {
    pub fn is_object(&self) -> bool {
        matches!(self, Value::Object(_))
    }
}

/// What an overlay goes by. A deliberate fault has one of them otherwise.
#[derive(Clone, Copy)]
pub struct Rules {
    /// Whether the lower table, and the upper one, is sound.
    pub sound: [fn(&Lent) -> bool; 2],
    /// Whether two keys with these names are one.
    pub name: for<'a> fn(&'a [u8]) -> Cow<'a, [u8]>,
    /// What the pairs of two objects with one key give.
    pub objects: for<'a> fn(&Rules, Pairs<'a>, Pairs<'a>) -> Result<Value<'a>, u32>,
    /// What two values with one key give that are not both objects.
    pub others: for<'a> fn(Value<'a>, Value<'a>) -> Result<Value<'a>, u32>,
    /// The lower's pairs, as they are now, and the upper's new ones, in the order of the result.
    pub order: for<'a> fn(Pairs<'a>, Pairs<'a>) -> Pairs<'a>,
    /// Whether a clash is told before a table that is not sound.
    pub clash_first: bool,
}

pub const RULES: Rules = Rules {
    sound: [sound, sound],
    name: |key| key.into(),
    objects: |rules, lower, upper| laid_over(rules, lower, upper).map(Value::Object),
    others: |lower, upper| if lower.is_object() || upper.is_object() { Err(CLASH) } else { Ok(upper) },
    order: |mut kept, new| {
        kept.extend(new);
        kept
    },
    clash_first: false,
};

/// The rows and text of a result.
#[derive(Clone, PartialEq, Eq, Debug)]
pub struct Laid {
    pub words: Vec<u32>,
    pub text: Vec<u8>,
}

/// The number, and both values beside it.
pub type Told = (u32, usize, usize);

/// The upper table laid over the lower, into rooms: 0, rows and text bytes; ROWS or TEXT, the need and 0; else 0 and 0.
pub fn overlay(lower: &Lent, upper: &Lent, table: &mut [u32], text: &mut [u8]) -> Told {
    fill(&laid(&RULES, lower, upper), table, text)
}

/// The same in rooms of its own; or BADROW or CLASH.
pub fn laid(rules: &Rules, lower: &Lent, upper: &Lent) -> Result<Laid, u32> {
    if rules.clash_first {
        if let (Some(lower), Some(upper)) = (root(lower), root(upper)) {
            laid_over(rules, lower, upper)?;
        }
    }
    if !(rules.sound[0])(lower) || !(rules.sound[1])(upper) {
        return Err(BADROW);
    }
    let (lower, upper) = (root(lower).ok_or(BADROW)?, root(upper).ok_or(BADROW)?);
    let value = Value::Object(laid_over(rules, lower, upper)?);
    let mut laid = Laid { words: Vec::new(), text: Vec::new() };
    laid.value(&value, 0);
    Ok(laid)
}

/// Puts a result into rooms, if they are large enough.
pub fn fill(laid: &Result<Laid, u32>, table: &mut [u32], text: &mut [u8]) -> Told {
    let laid = match laid {
        Ok(laid) => laid,
        Err(number) => return (*number, 0, 0),
    };
    let told = told(laid, table.len(), text.len());
    if told.0 == 0 {
        table[..laid.words.len()].copy_from_slice(&laid.words);
        text[..laid.text.len()].copy_from_slice(&laid.text);
    }
    told
}

/// What is told of a result, where so many words and bytes are lent.
pub fn told(laid: &Laid, words: usize, bytes: usize) -> Told {
    let (rows, text) = (laid.words.len() / WORDS, laid.text.len());
    if rows > (words / WORDS).min(MOST) {
        (ROWS, rows, 0)
    } else if text > bytes.min(MOST) {
        (TEXT, text, 0)
    } else {
        (0, rows, text)
    }
}

/// The upper's pairs over the lower's.
pub fn laid_over<'a>(rules: &Rules, lower: Pairs<'a>, upper: Pairs<'a>) -> Result<Pairs<'a>, u32> {
    let places: HashMap<_, _> = upper.iter().enumerate().map(|(i, pair)| ((rules.name)(pair.0), i)).collect();
    let mut upper: Vec<_> = upper.into_iter().map(Some).collect();
    let mut kept = Vec::new();
    for (key, value) in lower {
        let over = places.get(&(rules.name)(key)).and_then(|place| upper[*place].take());
        let value = match over {
            Some((_, over)) => laid_value(rules, value, over)?,
            None => value,
        };
        kept.push((key, value));
    }
    Ok((rules.order)(kept, upper.into_iter().flatten().collect()))
}

fn laid_value<'a>(rules: &Rules, lower: Value<'a>, upper: Value<'a>) -> Result<Value<'a>, u32> {
    match (lower, upper) {
        (Value::Object(lower), Value::Object(upper)) => (rules.objects)(rules, lower, upper),
        (lower, upper) => (rules.others)(lower, upper),
    }
}

/// The pairs of a table's root, if that is an object.
pub fn root<'a>(lent: &Lent<'a>) -> Option<Pairs<'a>> {
    let rows = lent.table.as_chunks().0;
    let rows = &rows[..rows.len().min(lent.rows)];
    match (Walk { rows, text: lent.text, at: 0 }).value(0)? {
        Value::Object(pairs) => Some(pairs),
        _ => None,
    }
}

/// A walk by kinds and counts alone; of a table that is not sound it gives some tree, or none.
struct Walk<'t, 'a> {
    rows: &'t [[u32; WORDS]],
    text: &'a [u8],
    at: usize,
}

impl<'a> Walk<'_, 'a> {
    fn row(&mut self) -> Option<[u32; WORDS]> {
        self.at += 1;
        self.rows.get(self.at - 1).copied()
    }

    fn text(&self, words: &[u32; WORDS]) -> Option<&'a [u8]> {
        self.text.get(words[TEXT_FROM] as usize..words[TEXT_TO] as usize)
    }

    fn value(&mut self, around: usize) -> Option<Value<'a>> {
        let words = self.row()?;
        Some(match words[0] {
            ARRAY | OBJECT if around > NESTING => return None,
            ARRAY => Value::Array((0..words[TEXT_TO]).map(|_| self.value(around + 1)).collect::<Option<_>>()?),
            OBJECT => Value::Object((0..words[TEXT_TO]).map(|_| self.pair(around + 1)).collect::<Option<_>>()?),
            kind @ INTEGER..=BYTES => Value::Leaf(kind, self.text(&words)?),
            kind => Value::Leaf(kind, b""),
        })
    }

    fn pair(&mut self, around: usize) -> Option<(&'a [u8], Value<'a>)> {
        let key = self.row()?;
        Some((self.text(&key)?, self.value(around)?))
    }
}

impl Laid {
    fn row(&mut self, kind: u32, from: usize, to: usize, parent: usize) -> usize {
        let row = self.words.len() / WORDS;
        let [from, to, parent, next] = [from, to, parent, row + 1].map(|word| word as u32);
        self.words.extend([kind, 0, 0, from, to, parent, next, 0, 0]);
        row
    }

    fn leaf(&mut self, kind: u32, text: &[u8], parent: usize) {
        let from = self.text.len();
        self.text.extend_from_slice(text);
        match kind {
            INTEGER..=BYTES | KEY => self.row(kind, from, from + text.len(), parent),
            _ => self.row(kind, 0, 0, parent),
        };
    }

    fn value(&mut self, value: &Value, parent: usize) {
        let row = match value {
            Value::Leaf(kind, text) => return self.leaf(*kind, text, parent),
            Value::Array(list) => {
                let row = self.row(ARRAY, 0, list.len(), parent);
                list.iter().for_each(|element| self.value(element, row));
                row
            }
            Value::Object(pairs) => {
                let row = self.row(OBJECT, 0, pairs.len(), parent);
                for (key, value) in pairs {
                    self.leaf(KEY, key, row);
                    self.value(value, row);
                }
                row
            }
        };
        self.words[row * WORDS + 6] = (self.words.len() / WORDS) as u32;
    }
}

//! The upgrade decision, made from document 02 apart from the proved one. A version is brought into one form: its numbers
//! in groups of nine digits, and no zeros at its end. In that form the order of versions is the order of lists.

use super::questions::Lent;
use super::sound::sound;
use super::tree::{ARRAY, BYTES, INTEGER, KEY, NEXT, OBJECT, TEXT_FROM, TEXT_TO};
use super::WORDS;

pub const BADSHEET: u32 = 14;
pub const BADINST: u32 = 15;

/// The keys of a sheet.
pub const KEYS: [&[u8]; 3] = [b"version", b"floor", b"image"];

#[derive(Clone, Copy, PartialEq, Eq, Debug)]
#[repr(u32)]
pub enum Decision {
    Install = 1,
    Keep,
    Blocked,
}

pub type Decided = Result<Decision, u32>;
/// The texts of a version's numbers.
pub type Places<'a> = [&'a [u8]];
pub type Version<'a> = Vec<&'a [u8]>;
/// A key's row and text, and its value's row.
pub type Pair<'a> = (&'a [u32; WORDS], &'a [u8], usize);

/// What a decision goes by. A deliberate fault has one of them otherwise.
#[derive(Clone, Copy)]
pub struct Rules {
    /// Whether the sheet's table, and the installed version's, is sound.
    pub sound: [fn(&Lent) -> bool; 2],
    /// Whether a version may have so many places.
    pub places: fn(&Places) -> bool,
    /// Whether a place may have this kind and text.
    pub place: fn(u32, &[u8]) -> bool,
    /// Whether an image may have this kind and so many bytes.
    pub image: fn(u32, usize) -> bool,
    /// The rows of version, floor and image among the root's pairs.
    pub keys: fn(&[Pair]) -> Option<[usize; 3]>,
    /// Whether one version is above another.
    pub above: fn(&Places, &Places) -> bool,
    /// The decision by that order, of a version, a floor and what is installed.
    pub choose: fn(&Rules, &Places, &Places, &Places) -> Decision,
    /// Whether the installed version is tested first.
    pub installed_first: bool,
}

pub const RULES: Rules = Rules {
    sound: [sound, sound],
    places: |version| (1..=8).contains(&version.len()),
    place: |kind, text| kind == INTEGER && !text.starts_with(b"-"),
    image: |kind, bytes| kind == BYTES && bytes == 32,
    keys: exactly,
    above: |one, other| form(one) > form(other),
    choose: |rules, version, floor, installed| match (rules.above)(version, installed) {
        true if !(rules.above)(floor, installed) => Decision::Install,
        true => Decision::Blocked,
        false => Decision::Keep,
    },
    installed_first: true,
};

pub fn decide(sheet: &Lent, installed: &Lent) -> Decided {
    decide_by(&RULES, sheet, installed)
}

pub fn decide_by(rules: &Rules, sheet: &Lent, installed: &Lent) -> Decided {
    let installed = installed_version(rules, installed).ok_or(BADINST);
    let sheet = sheet_versions(rules, sheet).ok_or(BADSHEET);
    let ([version, floor], installed) = match (sheet, installed) {
        (Err(bad), Err(_)) if !rules.installed_first => return Err(bad),
        (sheet, installed) => {
            let installed = installed?;
            (sheet?, installed)
        }
    };
    Ok((rules.choose)(rules, &version, &floor, &installed))
}

fn installed_version<'a>(rules: &Rules, lent: &Lent<'a>) -> Option<Version<'a>> {
    (rules.sound[1])(lent).then(|| version(rules, lent, 0))?
}

/// The version and the floor of a sheet.
fn sheet_versions<'a>(rules: &Rules, lent: &Lent<'a>) -> Option<[Version<'a>; 2]> {
    if !(rules.sound[0])(lent) || row(lent, 0)?[0] != OBJECT {
        return None;
    }
    let [first, floor, image] = (rules.keys)(&pairs(lent)?)?;
    let (kind, bytes) = (row(lent, image)?[0], text(lent, image)?.len());
    (rules.image)(kind, bytes).then_some(())?;
    Some([version(rules, lent, first)?, version(rules, lent, floor)?])
}

/// The rows of the three keys, where the pairs have these and no others.
fn exactly(pairs: &[Pair]) -> Option<[usize; 3]> {
    if pairs.len() != KEYS.len() {
        return None;
    }
    let find = |key| pairs.iter().find(|pair| pair.1 == key).map(|pair| pair.2);
    Some([find(KEYS[0])?, find(KEYS[1])?, find(KEYS[2])?])
}

/// The numbers' texts of an array that may be a version.
fn version<'a>(rules: &Rules, lent: &Lent<'a>, array: usize) -> Option<Version<'a>> {
    (row(lent, array)?[0] == ARRAY).then_some(())?;
    let mut places = Vec::new();
    for at in children(lent, array)? {
        let text = text(lent, at)?;
        (rules.place)(row(lent, at)?[0], text).then_some(())?;
        places.push(text);
    }
    (rules.places)(&places).then_some(places)
}

/// The root's keys with their values, one behind another.
fn pairs<'a>(lent: &Lent<'a>) -> Option<Vec<Pair<'a>>> {
    let rows = children(lent, 0)?;
    let pair = |rows: &[usize]| match rows {
        [key, value] if row(lent, *key)?[0] == KEY => Some((row(lent, *key)?, text(lent, *key)?, *value)),
        _ => None,
    };
    rows.chunks(2).map(pair).collect()
}

/// The children of a container's row, each by the row after the last descendant of the one before.
fn children(lent: &Lent, container: usize) -> Option<Vec<usize>> {
    let (mut at, end) = (container + 1, row(lent, container)?[NEXT] as usize);
    let mut list = Vec::new();
    while at < end {
        list.push(at);
        at = (row(lent, at)?[NEXT] as usize).max(at + 1);
    }
    Some(list)
}

fn row<'a>(lent: &Lent<'a>, row: usize) -> Option<&'a [u32; WORDS]> {
    let rows = lent.table.as_chunks().0;
    rows.get(row).filter(|_| row < lent.rows)
}

/// A row's text; of one without text, whatever bytes its words name, which no rule looks at.
fn text<'a>(lent: &Lent<'a>, at: usize) -> Option<&'a [u8]> {
    let words = row(lent, at)?;
    if matches!(words[0], INTEGER..=BYTES | KEY) {
        lent.text.get(words[TEXT_FROM] as usize..words[TEXT_TO] as usize)
    } else {
        Some(b"")
    }
}

/// A number of any length: how many groups of nine digits it has, and these, the highest first. Zero has none.
type Number = (usize, Vec<u64>);

fn number(text: &[u8]) -> Number {
    let value = |digits: &[u8]| digits.iter().fold(0, |sum, digit| 10 * sum + u64::from(digit.wrapping_sub(b'0')));
    let groups: Vec<_> = text.rchunks(9).rev().map(value).skip_while(|group| *group == 0).collect();
    (groups.len(), groups)
}

/// The one form of all versions that are equal: without zeros at its end.
fn form(version: &Places) -> Vec<Number> {
    let mut numbers: Vec<_> = version.iter().map(|text| number(text)).collect();
    while numbers.last().is_some_and(|last| last.0 == 0) {
        numbers.pop();
    }
    numbers
}

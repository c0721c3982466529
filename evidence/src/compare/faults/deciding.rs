//! Decisions that are right but for one rule.

use crate::compare::deciding::{told, Decider};
use crate::second::decide::{decide_by, Decision, Pair, Places, Rules, KEYS, RULES};
use crate::second::questions::Lent;
use crate::second::sound::used;
use crate::second::WORDS;
use std::cmp::Ordering;

/// A second decision by other rules, or that tells its answer otherwise.
struct Faulty {
    rules: Rules,
    tell: fn((u32, u32)) -> (u32, u32),
}

impl Decider for Faulty {
    fn decide(&self, sheet: &Lent, installed: &Lent) -> (u32, u32) {
        (self.tell)(told(decide_by(&self.rules, sheet, installed)))
    }
}

/// Whether one version is above another, place by place as `order` has it; a missing place is `missing`.
fn above(one: &Places, other: &Places, missing: &[u8], order: fn(&[u8], &[u8]) -> Ordering) -> bool {
    let place = |version: &Places, i: usize| version.get(i).map_or(missing.to_vec(), |text| text.to_vec());
    let orders = (0..one.len().max(other.len())).map(|i| order(&place(one, i), &place(other, i)));
    orders.fold(Ordering::Equal, Ordering::then).is_gt()
}

/// By length and digits; the empty text is below zero.
fn by_number(one: &[u8], other: &[u8]) -> Ordering {
    one.len().cmp(&other.len()).then_with(|| one.cmp(other))
}

/// The number of a text in floating point.
fn float(text: &[u8]) -> f64 {
    std::str::from_utf8(text).ok().and_then(|text| text.parse().ok()).unwrap_or(0.0)
}

/// The number of a text in 64 bits, which wrap.
fn wrapped(text: &[u8]) -> u64 {
    text.iter().fold(0, |sum: u64, digit| sum.wrapping_mul(10).wrapping_add(u64::from(digit.wrapping_sub(b'0'))))
}

/// Other orders of versions.
const ORDERS: [(&str, Rules); 8] = [
    ("numbers are compared by text", Rules { above: |a, b| above(a, b, b"0", |a, b| a.cmp(b)), ..RULES }),
    ("missing places are below zero", Rules { above: |a, b| above(a, b, b"", by_number), ..RULES }),
    (
        "missing places are passed over",
        Rules { above: |a, b| above(common(a, b), common(b, a), b"0", by_number), ..RULES },
    ),
    (
        "places behind the seventh are passed over",
        Rules { above: |a, b| above(first(a), first(b), b"0", by_number), ..RULES },
    ),
    (
        "numbers are rounded to binary64",
        Rules { above: |a, b| above(a, b, b"0", |a, b| float(a).total_cmp(&float(b))), ..RULES },
    ),
    ("numbers wrap at 64 bits", Rules { above: |a, b| above(a, b, b"0", |a, b| wrapped(a).cmp(&wrapped(b))), ..RULES }),
    ("the longer version is above", Rules { above: |a, b| above(a, b, b"0", by_number) || a.len() > b.len(), ..RULES }),
    ("the last place decides", Rules { above: |a, b| above(&reversed(a), &reversed(b), b"0", by_number), ..RULES }),
];

/// The places of one version that the other has too.
fn common<'a, 'b>(one: &'b Places<'a>, other: &Places) -> &'b Places<'a> {
    &one[..one.len().min(other.len())]
}

fn first<'a, 'b>(version: &'b Places<'a>) -> &'b Places<'a> {
    &version[..version.len().min(7)]
}

fn reversed<'a>(version: &Places<'a>) -> Vec<&'a [u8]> {
    let mut places = version.to_vec();
    places.resize(8, b"0");
    places.reverse();
    places
}

/// Other choices.
const CHOICES: [(&str, Rules); 6] = [
    (
        "the floor is compared with the version",
        Rules {
            choose: |rules, version, floor, installed| match (rules.above)(version, installed) {
                true if (rules.above)(floor, version) => Decision::Blocked,
                true => Decision::Install,
                false => Decision::Keep,
            },
            ..RULES
        },
    ),
    (
        "an equal version is installed",
        Rules {
            choose: |rules, version, floor, installed| match (rules.above)(installed, version) {
                false if !(rules.above)(floor, installed) => Decision::Install,
                false if (rules.above)(version, installed) => Decision::Blocked,
                _ => Decision::Keep,
            },
            ..RULES
        },
    ),
    (
        "what is installed must be above the floor",
        Rules {
            choose: |rules, version, floor, installed| match (rules.above)(version, installed) {
                true if (rules.above)(installed, floor) => Decision::Install,
                true => Decision::Blocked,
                false => Decision::Keep,
            },
            ..RULES
        },
    ),
    (
        "blocked comes before keep",
        Rules {
            choose: |rules, version, floor, installed| match (rules.above)(floor, installed) {
                true => Decision::Blocked,
                false if (rules.above)(version, installed) => Decision::Install,
                false => Decision::Keep,
            },
            ..RULES
        },
    ),
    (
        "a floor above its own version keeps what is installed",
        Rules {
            choose: |rules, version, floor, installed| match (rules.above)(floor, version) {
                true => Decision::Keep,
                false => (RULES.choose)(rules, version, floor, installed),
            },
            ..RULES
        },
    ),
    (
        "version and floor are exchanged",
        Rules { choose: |rules, version, floor, installed| (RULES.choose)(rules, floor, version, installed), ..RULES },
    ),
];

fn find(pairs: &[Pair], is: fn(&[u8], &[u8]) -> bool) -> Option<[usize; 3]> {
    let find = |key| pairs.iter().find(|pair| is(pair.1, key)).map(|pair| pair.2);
    Some([find(KEYS[0])?, find(KEYS[1])?, find(KEYS[2])?])
}

/// Whether no key's span is longer than its text and two quotes.
fn as_written(pairs: &[Pair]) -> bool {
    pairs.iter().all(|(words, text, _)| (words[2] as usize).saturating_sub(words[1] as usize) <= text.len() + 2)
}

/// Other shapes of sheets and versions.
const SHAPES: [(&str, Rules); 16] = [
    ("keys are not decoded", Rules { keys: |pairs| as_written(pairs).then(|| (RULES.keys)(pairs))?, ..RULES }),
    ("a fourth key is passed over", Rules { keys: |pairs| find(pairs, |text, key| text == key), ..RULES }),
    ("keys stand in one order", Rules { keys: |pairs| (RULES.keys)(pairs).filter(|rows| rows.is_sorted()), ..RULES }),
    (
        "a key's case does not matter",
        Rules {
            keys: |pairs| find(pairs, |text, key| text.eq_ignore_ascii_case(key)).filter(|_| pairs.len() == 3),
            ..RULES
        },
    ),
    (
        "a key's beginning is enough",
        Rules { keys: |pairs| find(pairs, |text, key| text.starts_with(key)).filter(|_| pairs.len() == 3), ..RULES },
    ),
    ("nine places are taken", Rules { places: |version| (1..=9).contains(&version.len()), ..RULES }),
    (
        "a ninth place of 0 is taken",
        Rules { places: |version| !version.is_empty() && version.iter().skip(8).all(|place| place == b"0"), ..RULES },
    ),
    ("eight places are too many", Rules { places: |version| (1..=7).contains(&version.len()), ..RULES }),
    ("no places are taken", Rules { places: |version| version.len() <= 8, ..RULES }),
    ("31 bytes are taken", Rules { image: |kind, bytes| kind == 7 && (31..=32).contains(&bytes), ..RULES }),
    ("33 bytes are taken", Rules { image: |kind, bytes| kind == 7 && (32..=33).contains(&bytes), ..RULES }),
    ("a string of 32 bytes is an image", Rules { image: |kind, bytes| matches!(kind, 6 | 7) && bytes == 32, ..RULES }),
    ("a number below zero is taken", Rules { place: |kind, _| kind == 4, ..RULES }),
    ("zero is no place", Rules { place: |kind, text| (RULES.place)(kind, text) && text != b"0", ..RULES }),
    (
        "a string of digits is a place",
        Rules { place: |kind, text| matches!(kind, 4 | 6) && !text.starts_with(b"-"), ..RULES },
    ),
    ("a float is a place", Rules { place: |kind, text| matches!(kind, 4 | 5) && !text.starts_with(b"-"), ..RULES }),
];

/// Other tests of soundness, and another order of the two refusals.
const TESTS: [(&str, Rules); 6] = [
    ("BADSHEET comes before BADINST", Rules { installed_first: false, ..RULES }),
    ("a sheet need not be sound", Rules { sound: [|_| true, RULES.sound[1]], ..RULES }),
    ("an installed version need not be sound", Rules { sound: [RULES.sound[0], |_| true], ..RULES }),
    ("a sheet's table is as long as its rows", Rules { sound: [fits, RULES.sound[1]], ..RULES }),
    ("an installed version's room is as long as its text", Rules { sound: [RULES.sound[0], filled], ..RULES }),
    ("a sheet's spans are looked at", Rules { sound: [spanned, RULES.sound[1]], ..RULES }),
];

fn fits(lent: &Lent) -> bool {
    (RULES.sound[0])(lent) && lent.table.len() == lent.rows * WORDS
}

fn filled(lent: &Lent) -> bool {
    used(lent, None) == Some(lent.text.len())
}

fn spanned(lent: &Lent) -> bool {
    (RULES.sound[0])(lent) && lent.table.chunks(WORDS).take(lent.rows).all(|row| row[1] <= row[2])
}

type Tell = fn((u32, u32)) -> (u32, u32);

/// Other tellings.
const TELLINGS: [(&str, Tell); 2] = [
    ("a refusal tells a decision", |(number, decision)| (number, if number == 0 { decision } else { 2 })),
    ("an unsound table is told as BADROW", |told| if told.0 == 0 { told } else { (9, 0) }),
];

/// All of them.
pub fn faults() -> Vec<(&'static str, Box<dyn Decider>)> {
    let rules = ORDERS.iter().chain(&CHOICES).chain(&SHAPES).chain(&TESTS);
    let by_rules = rules.map(|&(name, rules)| (name, Faulty { rules, tell: |told| told }));
    let by_telling = TELLINGS.iter().map(|&(name, tell)| (name, Faulty { rules: RULES, tell }));
    by_rules.chain(by_telling).map(|(name, faulty)| (name, Box::new(faulty) as Box<dyn Decider>)).collect()
}

//! Overlays that are right but for one rule.

mod keys;
mod results;
pub(super) mod rooms;
mod values;

use crate::compare::overlaying::Lays;
use crate::second::overlay::{fill, laid, Laid, Rules, Told, RULES};
use crate::second::questions::Lent;
use crate::second::sound::{sound, used};
use crate::second::WORDS;
use keys::KEYS;
use results::RESULTS;
use rooms::{FILLINGS, REFUSALS, TELLINGS};
use values::VALUES;

/// How a result that was laid is spoilt; the two sources are at hand.
type Spoil = fn(&mut Laid, &Lent, &Lent);
/// How a result is put into rooms.
pub(super) type Fill = fn(&Result<Laid, u32>, &mut [u32], &mut [u8]) -> Told;

/// A second overlay by other rules, that spoils its result, or that fills rooms otherwise.
struct Faulty {
    rules: Rules,
    spoil: Spoil,
    fill: Fill,
}

const GOOD: Faulty = Faulty { rules: RULES, spoil: |_, _, _| {}, fill };

impl Lays for Faulty {
    fn lay(&self, lower: &Lent, upper: &Lent, table: &mut [u32], text: &mut [u8]) -> Told {
        let mut laid = laid(&self.rules, lower, upper);
        if let Ok(laid) = &mut laid {
            (self.spoil)(laid, lower, upper);
        }
        (self.fill)(&laid, table, text)
    }
}

fn spanned(lent: &Lent) -> bool {
    sound(lent) && lent.table.chunks(WORDS).take(lent.rows).all(|row| row[1] <= row[2])
}

/// Other tests of the two tables, and another order of refusals.
const TESTS: [(&str, Rules); 6] = [
    ("CLASH comes before BADROW", Rules { clash_first: true, ..RULES }),
    ("the lower need not be sound", Rules { sound: [|_| true, sound], ..RULES }),
    ("the upper need not be sound", Rules { sound: [sound, |_| true], ..RULES }),
    ("the lower's table is as long as its rows", Rules { sound: [fits, sound], ..RULES }),
    ("the upper's room is as long as its text", Rules { sound: [sound, filled], ..RULES }),
    ("the upper's spans are looked at", Rules { sound: [sound, spanned], ..RULES }),
];

fn fits(lent: &Lent) -> bool {
    sound(lent) && lent.table.len() == lent.rows * WORDS
}

fn filled(lent: &Lent) -> bool {
    used(lent, None) == Some(lent.text.len())
}

/// All of them.
pub fn faults() -> Vec<(&'static str, Box<dyn Lays>)> {
    let by_rules = VALUES.iter().chain(&KEYS).chain(&TESTS).map(|&(name, rules)| (name, Faulty { rules, ..GOOD }));
    let by_result = RESULTS.iter().map(|&(name, spoil)| (name, Faulty { spoil, ..GOOD }));
    let by_filling =
        FILLINGS.iter().chain(&REFUSALS).chain(&TELLINGS).map(|&(name, fill)| (name, Faulty { fill, ..GOOD }));
    let all = by_rules.chain(by_result).chain(by_filling);
    all.map(|(name, faulty)| (name, Box::new(faulty) as Box<dyn Lays>)).collect()
}

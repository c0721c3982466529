//! What the upgrade decision takes.

use super::{Bench, FEW, LONG_ENOUGH, MANY};
use crate::clock::Shortest;
use crate::compare::deciding::{Decider, SecondDecider};
use crate::proved::Proved;
use crate::second::Second;
use crate::sheets::borders::IMAGE;
use crate::tables::Table;
use std::hint::black_box;

/// A sheet and an installed version to be measured on.
pub struct Case {
    pub name: String,
    sheet: Table,
    installed: Table,
    /// The case of the same form, but smaller, beside which a byte may cost no more.
    pub smaller: Option<usize>,
}

/// The shortest times of the proved decision and of the second, in seconds, and how many bytes of text both tables have.
#[derive(Clone, Copy)]
pub struct Decided {
    pub bytes: usize,
    pub proved: f64,
    pub second: f64,
}

impl Decided {
    /// Nanoseconds a byte of text of the proved decision.
    pub fn a_byte(&self) -> f64 {
        self.proved / self.bytes as f64 * 1e9
    }
}

fn case(name: String, sheet: &str, installed: &str, smaller: Option<usize>) -> Case {
    let [sheet, installed] =
        [sheet, installed].map(|doc| Second::new().given(doc.as_bytes()).expect("a document").into());
    Case { name, sheet, installed, smaller }
}

fn sheet(version: &str, floor: &str) -> String {
    format!("version: {version}\nfloor: {floor}\nimage: {IMAGE}\n")
}

/// Eight numbers of so many digits; the last digit of the last decides.
fn long(digits: usize, smaller: Option<usize>) -> Case {
    let number = |last: char| "7".repeat(digits - 1) + &last.to_string();
    let version = |last: char| format!("[{}{}]", (number('7') + ", ").repeat(7), number(last));
    let name = format!("8 numbers of {digits} digits");
    case(name, &sheet(&version('9'), &version('8')), &(version('8') + "\n"), smaller)
}

/// An object of so many keys, which is no sheet.
fn keys(count: usize, smaller: Option<usize>) -> Case {
    let doc: String = (0..count).map(|i| format!("k{i:04}: 1\n")).collect();
    case(format!("no sheet, but {count} keys"), &doc, "[9]\n", smaller)
}

/// As people write them, and long ones in three sizes.
pub fn cases() -> Vec<Case> {
    vec![
        case("as people write them".into(), &sheet("[10, 2, 0]", "[9]"), "[9, 4, 1]\n", None),
        long(250, None),
        long(500, Some(1)),
        long(1_000, Some(1)),
        keys(700, None),
        keys(2_800, Some(4)),
    ]
}

impl Bench {
    /// The two decisions take turns. Nothing if they differ.
    pub fn decided(&mut self, case: &Case) -> Option<Decided> {
        let (sheet, installed) = (case.sheet.lent(), case.installed.lent());
        if Proved.decide(&sheet, &installed) != SecondDecider.decide(&sheet, &installed) {
            return None;
        }
        let (mut proved, mut second) = (Shortest::default(), Shortest::default());
        for round in 1..=MANY {
            proved.turn(&self.machine, self.clock, || {
                black_box(Proved.decide(black_box(&sheet), black_box(&installed)));
            });
            second.turn(&self.machine, self.clock, || {
                black_box(SecondDecider.decide(black_box(&sheet), black_box(&installed)));
            });
            if round >= FEW && proved.all + second.all > LONG_ENOUGH {
                break;
            }
        }
        let bytes = sheet.text.len() + installed.text.len();
        Some(Decided { bytes, proved: proved.a_call, second: second.a_call })
    }
}

//! Asks the questions of a good table and of spoiled ones, and compares the answers.

use super::{Questions, SecondQuestions, Tally};
use crate::documents::{pieces, Rng};
use crate::second::questions::Lent;
use crate::second::WORDS;

/// The first differing answer, in words.
pub fn difference(
    questions: &dyn Questions,
    words: &[u32],
    text: &[u8],
    rng: &mut Rng,
    tally: &mut Tally,
) -> Option<String> {
    let rows = words.len() / WORDS;
    let good = Lent { table: words, rows, text };
    for _ in 0..3 {
        let what = one(questions, &good, rng, tally);
        if what.is_some() {
            return what;
        }
    }
    let mut spoiled = words.to_vec();
    for _ in 0..1 + rng.below(3) {
        spoil(&mut spoiled, rows, text.len(), rng);
    }
    spoiled.truncate(words.len() - if rng.once_in(4) { rng.below(WORDS + 2).min(words.len()) } else { 0 });
    let rows = if rng.once_in(3) { rng.below(rows + 3) } else { rows };
    let text = &text[..text.len() - if rng.once_in(4) { rng.below(text.len() + 1) } else { 0 }];
    one(questions, &Lent { table: &spoiled, rows, text }, rng, tally).or_else(|| integers(questions, &good, rng, tally))
}

fn spoil(table: &mut [u32], rows: usize, bytes: usize, rng: &mut Rng) {
    let i = rng.below(table.len());
    table[i] = match rng.below(4) {
        0 => rng.below(12) as u32,
        1 => rng.below(rows + 2) as u32,
        2 => rng.below(bytes + 2) as u32,
        _ => [u32::MAX, table[i].wrapping_add(1), table[i].wrapping_sub(1)][rng.below(3)],
    };
}

/// A row's text, and a key that is often there.
fn one(questions: &dyn Questions, lent: &Lent, rng: &mut Rng, tally: &mut Tally) -> Option<String> {
    let row = if rng.once_in(50) { usize::MAX - rng.below(3) } else { rng.below(lent.rows + 2) };
    let other = rng.below(lent.rows + 2);
    let (expected, answer) = (SecondQuestions.row_text(lent, row), questions.row_text(lent, row));
    count(tally, &expected);
    if answer != expected {
        return Some(format!("text of row {row}: expected {expected:?}, got {answer:?}"));
    }
    let key = match lent.row_text(other) {
        Ok(part) => lent.text[part].to_vec(),
        Err(_) => pieces::bare_key(rng).into_bytes(),
    };
    let (expected, answer) = (SecondQuestions.find_key(lent, row, &key), questions.find_key(lent, row, &key));
    count(tally, &expected);
    (answer != expected).then(|| format!("key {key:?} in row {row}: expected {expected:?}, got {answer:?}"))
}

fn integers(questions: &dyn Questions, lent: &Lent, rng: &mut Rng, tally: &mut Tally) -> Option<String> {
    let mut integer = || {
        let row = rng.below(lent.rows);
        match lent.row_text(row) {
            Ok(part) if rng.once_in(2) => lent.text[part].to_vec(),
            _ => format!("{}{}", rng.pick(&["", "-"]), pieces::digits(rng, false)).into_bytes(),
        }
    };
    let (left, right) = (integer(), integer());
    let expected = SecondQuestions.compare_integers(&left, &right);
    let answer = questions.compare_integers(&left, &right);
    count(tally, &expected);
    (answer != expected).then(|| format!("{left:?} against {right:?}: expected {expected:?}, got {answer:?}"))
}

fn count<T>(tally: &mut Tally, answer: &Result<T, u32>) {
    tally.asked += 1;
    if let Err(number) = answer {
        tally.numbers[*number as usize] += 1;
    }
}

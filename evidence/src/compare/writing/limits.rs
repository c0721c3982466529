//! The questions at the limits of what a lent room counts for: 16,777,216 rows, and as many bytes of text.

use crate::compare::{Questions, SecondQuestions};
use crate::second::questions::Lent;
use crate::second::{MOST, WORDS};

/// The first differing answer, in words. The rooms are never touched but for a few rows, so they take little memory.
pub fn difference(questions: &dyn Questions) -> Option<String> {
    let (mut table, text) = (vec![0; (MOST + 2) * WORDS], vec![0; MOST + 2]);
    let most = MOST as u32;
    // An object whose one key ends at the limit, and another whose key ends behind it.
    put(&mut table, 0, [9, 0, 0, 0, 1, 0, 3, 0, 0]);
    put(&mut table, 1, [10, 0, 0, most - 1, most, 0, 2, 0, 0]);
    put(&mut table, 2, [6, 0, 0, most, most, 0, 3, 0, 0]);
    put(&mut table, 3, [9, 0, 0, 0, 1, 0, 6, 0, 0]);
    put(&mut table, 4, [10, 0, 0, most, most + 1, 3, 5, 0, 0]);
    put(&mut table, 5, [6, 0, 0, most + 1, most + 1, 3, 6, 0, 0]);
    // One whose value is the first row too many.
    put(&mut table, MOST - 2, [9, 0, 0, 0, 1, 0, most + 1, 0, 0]);
    put(&mut table, MOST - 1, [10, 0, 0, 0, 1, most - 2, most, 0, 0]);
    put(&mut table, MOST, [6, 0, 0, 0, 1, most - 2, most + 1, 0, 0]);
    put(&mut table, MOST + 1, [6, 0, 0, 0, 1, 0, most + 2, 0, 0]);
    let lent = Lent { table: &table, rows: MOST + 2, text: &text };
    let texts = [1, 2, 4, 5, MOST - 1, MOST, MOST + 1].into_iter().find_map(|row| {
        let (expected, answer) = (SecondQuestions.row_text(&lent, row), questions.row_text(&lent, row));
        (answer != expected).then(|| format!("text of row {row}: expected {expected:?}, got {answer:?}"))
    });
    let find = |row| {
        let (expected, answer) = (SecondQuestions.find_key(&lent, row, b"\0"), questions.find_key(&lent, row, b"\0"));
        (answer != expected).then(|| format!("a key in row {row}: expected {expected:?}, got {answer:?}"))
    };
    texts.or_else(|| [0, 3, MOST - 2].into_iter().find_map(find))
}

fn put(table: &mut [u32], row: usize, words: [u32; WORDS]) {
    table[row * WORDS..][..WORDS].copy_from_slice(&words);
}

#[cfg(test)]
mod tests {
    use super::*;
    use crate::second::questions::BADROW;
    use std::ops::Range;

    /// Questions that know no limit.
    struct Unlimited;

    impl Questions for Unlimited {
        fn row_text(&self, lent: &Lent, row: usize) -> Result<Range<usize>, u32> {
            let words = &lent.table[row * WORDS..];
            if words[4] as usize <= lent.text.len() {
                Ok(words[3] as usize..words[4] as usize)
            } else {
                Err(BADROW)
            }
        }

        fn find_key(&self, lent: &Lent, object: usize, key: &[u8]) -> Result<usize, u32> {
            lent.find_key(object, key)
        }

        fn compare_integers(&self, left: &[u8], right: &[u8]) -> Result<i32, u32> {
            SecondQuestions.compare_integers(left, right)
        }
    }

    #[test]
    fn questions_without_limits_differ() {
        assert_eq!(difference(&SecondQuestions), None);
        assert_eq!(difference(&Unlimited), Some("text of row 4: expected Err(9), got Ok(16777216..16777217)".into()));
    }
}

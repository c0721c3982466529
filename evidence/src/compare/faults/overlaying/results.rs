//! Results that were laid and are spoilt.

use super::Spoil;
use crate::second::overlay::Laid;
use crate::second::questions::Lent;
use crate::second::WORDS;

fn each_row(laid: &mut Laid, mut spoil: impl FnMut(usize, &mut [u32])) {
    laid.words.chunks_mut(WORDS).enumerate().for_each(|(row, words)| spoil(row, words));
}

fn root_word(lent: &Lent, word: usize) -> u32 {
    lent.table[word]
}

/// Other results.
pub const RESULTS: [(&str, Spoil); 11] = [
    ("the root keeps the lower's span", |laid, lower, _| {
        [1, 2].into_iter().for_each(|word| laid.words[word] = root_word(lower, word))
    }),
    ("the root keeps the upper's line and column", |laid, _, upper| {
        [7, 8].into_iter().for_each(|word| laid.words[word] = root_word(upper, word))
    }),
    ("spans are counted from the text", |laid, _, _| each_row(laid, |_, row| (row[1], row[2]) = (row[3], row[4]))),
    ("the root counts the pairs of both", |laid, lower, upper| {
        laid.words[4] = root_word(lower, 4) + root_word(upper, 4)
    }),
    ("objects count their rows", |laid, _, _| {
        each_row(laid, |_, row| row[4] *= if row[0] == 9 { 2 } else { 1 });
    }),
    ("a byte is left out between texts", gap),
    ("texts stand behind each other, the lower's first", behind),
    ("an empty text stands at 0", |laid, _, _| {
        each_row(laid, |_, row| {
            if row[3] == row[4] && row[0] != 8 && row[0] != 9 {
                (row[3], row[4]) = (0, 0)
            }
        });
    }),
    ("a value's parent is its key", |laid, _, _| {
        let rows = laid.words.len() / WORDS;
        for row in (1..rows).filter(|row| laid.words[(row - 1) * WORDS] == 10).collect::<Vec<_>>() {
            laid.words[row * WORDS + 5] = row as u32 - 1;
        }
    }),
    ("a key's next row is its value's", |laid, _, _| {
        for row in (0..laid.words.len()).step_by(WORDS) {
            if laid.words[row] == 10 {
                laid.words[row + 6] = laid.words[row + WORDS + 6];
            }
        }
    }),
    ("the text has a byte too many", |laid, _, _| laid.text.push(0)),
];

/// A byte behind the first key.
fn gap(laid: &mut Laid, _: &Lent, _: &Lent) {
    let Some(key) = laid.words.chunks(WORDS).find(|row| row[0] == 10) else { return };
    let at = key[4];
    laid.text.insert(at as usize, 0);
    each_row(laid, |row, words| {
        if row > 1 && matches!(words[0], 4..=7 | 10) {
            words[3] += 1;
            words[4] += 1;
        }
    });
}

/// The texts of the root's new keys stand before those of its last kept one.
fn behind(laid: &mut Laid, lower: &Lent, _: &Lent) {
    let kept = root_word(lower, 4) as usize;
    let keys: Vec<_> = (0..laid.words.len() / WORDS)
        .filter(|row| laid.words[row * WORDS] == 10 && laid.words[row * WORDS + 5] == 0)
        .map(|row| row * WORDS)
        .collect();
    let (Some(&last), Some(&new)) = (keys.get(kept.wrapping_sub(1)), keys.get(kept)) else { return };
    let [from, middle, to] = [laid.words[last + 3], laid.words[new + 3], laid.words[new + 4]];
    if new != last + 2 * WORDS {
        return;
    }
    laid.text[from as usize..to as usize].rotate_left((middle - from) as usize);
    let length = to - middle;
    for row in (last..new).step_by(WORDS).filter(|row| matches!(laid.words[*row], 4..=7 | 10)).collect::<Vec<_>>() {
        laid.words[row + 3] += length;
        laid.words[row + 4] += length;
    }
    (laid.words[new + 3], laid.words[new + 4]) = (from, from + length);
}

//! Changed documents: bytes changed, dropped, doubled, put in, also just behind a backslash,
//! lines swapped, doubled, dropped or joined, indentation shifted, ends cut.

use super::Rng;

/// Bytes that mean something in the grammar, and bytes at the borders of characters.
const BYTES: &[u8] = b"\n\n\n    --::#`>\"'\\[]{}<>,,01e.+na/u\x00\x09\x0D\x7F\x80\xA0\xBF\xC1\xC2\xE0\xED\xEF\xF0\xF4\xF5\xFF\xBE\x9F\x8F\xB7\x90";

/// One random change, sometimes several.
pub fn mutate(rng: &mut Rng, doc: &mut Vec<u8>) {
    loop {
        change(rng, doc);
        if !rng.once_in(4) {
            return;
        }
    }
}

fn change(rng: &mut Rng, doc: &mut Vec<u8>) {
    if doc.is_empty() {
        doc.push(byte(rng));
        return;
    }
    let at = rng.below(doc.len());
    match rng.below(13) {
        0 | 1 => doc[at] = byte(rng),
        2 => doc[at] ^= 1 << rng.below(8),
        3 => drop(doc.remove(at)),
        4 => doc.insert(at, doc[at]),
        5 | 6 => doc.insert(at, byte(rng)),
        7 => doc.truncate(at),
        8 | 9 => shift(rng, doc, at),
        10 => change_behind_backslash(rng, doc, at),
        _ => change_lines(rng, doc),
    }
}

fn byte(rng: &mut Rng) -> u8 {
    BYTES[rng.below(BYTES.len())]
}

/// Changes or puts in a byte behind the first backslash from `at` on, or ends the document there.
fn change_behind_backslash(rng: &mut Rng, doc: &mut Vec<u8>, at: usize) {
    let Some(behind) = doc[at..].iter().position(|&byte| byte == b'\\').map(|found| at + found + 1) else { return };
    match rng.below(3) {
        0 => doc.truncate(behind),
        1 if behind < doc.len() => doc[behind] = byte(rng),
        _ => doc.insert(behind, byte(rng)),
    }
}

/// Puts in or takes away one to three spaces at the start of the line around `at`.
fn shift(rng: &mut Rng, doc: &mut Vec<u8>, at: usize) {
    let start = doc[..at].iter().rposition(|&byte| byte == b'\n').map_or(0, |lf| lf + 1);
    for _ in 0..1 + rng.below(3) {
        if rng.once_in(2) {
            doc.insert(start, b' ');
        } else if doc.get(start) == Some(&b' ') {
            doc.remove(start);
        }
    }
}

fn change_lines(rng: &mut Rng, doc: &mut Vec<u8>) {
    let mut lines: Vec<Vec<u8>> = doc.split_inclusive(|&byte| byte == b'\n').map(<[u8]>::to_vec).collect();
    let (one, other) = (rng.below(lines.len()), rng.below(lines.len()));
    match rng.below(5) {
        0 | 1 => lines.swap(one, other),
        2 => lines.insert(one, lines[other].clone()),
        3 => drop(lines.remove(one)),
        _ => drop(lines[one].pop()),
    }
    *doc = lines.concat();
}

//! Stored forms taken apart, with a field in another place, and put together again with lengths that are right.

use crate::documents::Rng;

/// A field, whatever its tag.
#[derive(Clone)]
struct Field {
    tag: u8,
    text: Vec<u8>,
    inside: Vec<Field>,
}

const LONG: usize = 65_535;

/// Fields that follow one another, in a good form.
fn apart(bytes: &[u8]) -> Vec<Field> {
    let (mut list, mut left) = (Vec::new(), bytes);
    while let [tag, high, low, behind @ ..] = left {
        let (content, next) = behind.split_at(usize::from(*high) << 8 | usize::from(*low));
        list.push(match tag {
            8 | 9 => Field { tag: *tag, text: Vec::new(), inside: apart(content) },
            _ => Field { tag: *tag, text: content.to_vec(), inside: Vec::new() },
        });
        left = next;
    }
    list
}

fn together(list: &[Field], bytes: &mut Vec<u8>) {
    for Field { tag, text, inside } in list {
        let at = bytes.len();
        bytes.extend([*tag, 0, 0]);
        bytes.extend_from_slice(text);
        together(inside, bytes);
        let content = (bytes.len() - at - 3).min(LONG) as u16;
        bytes[at + 1..at + 3].copy_from_slice(&content.to_be_bytes());
    }
}

fn count(list: &[Field]) -> usize {
    list.iter().map(|field| 1 + count(&field.inside)).sum()
}

/// Edits the list that a field stands in; fields are counted from the outside in.
fn at(list: &mut Vec<Field>, left: &mut usize, edit: &mut dyn FnMut(&mut Vec<Field>, usize)) -> bool {
    for i in 0..list.len() {
        if *left == 0 {
            edit(list, i);
            return true;
        }
        *left -= 1;
        if at(&mut list[i].inside, left, edit) {
            return true;
        }
    }
    false
}

/// A good form with one field taken out, doubled, exchanged, put elsewhere, put into a container, or of another tag.
pub fn moved(good: &[u8], rng: &mut Rng) -> Vec<u8> {
    let mut root = apart(good);
    let fields = count(&root);
    let (mut from, mut to) = (rng.below(fields), rng.below(fields));
    let mut other = None;
    at(&mut root, &mut from, &mut |list, i| other = Some(list[i].clone()));
    at(&mut root, &mut to, &mut |list, i| edit(list, i, other.take(), rng));
    let mut bytes = Vec::new();
    together(&root, &mut bytes);
    bytes
}

fn edit(list: &mut Vec<Field>, i: usize, other: Option<Field>, rng: &mut Rng) {
    let around = |tag, inside| Field { tag, text: Vec::new(), inside };
    match rng.below(9) {
        0 => drop(list.remove(i)),
        1 => list.insert(i, list[i].clone()),
        2 => {
            let last = list.len() - 1;
            list.swap(i, last)
        }
        3 => list[i].tag = rng.below(13) as u8,
        4 => list[i] = around(8, vec![list[i].clone()]),
        5 => list[i] = around(9, vec![Field { tag: 10, text: b"k".to_vec(), inside: Vec::new() }, list[i].clone()]),
        6 => list[i].text.clear(),
        7 => list[i].text.extend(other.map_or(Vec::new(), |other| other.text)),
        _ => list.extend(other),
    }
}

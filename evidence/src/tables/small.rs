//! All tables of one row and of two rows over small words, spans, lines and columns aside.

use super::Table;
use crate::second::WORDS;

/// How many different words stand at each place of a row.
const KINDS: usize = 12;
const TEXTS: usize = 3;
const PARENTS: usize = 2;
const NEXTS: usize = 4;
/// How many different rows there are.
const ROWS: usize = KINDS * TEXTS * TEXTS * PARENTS * NEXTS;
/// The text room, which is long enough for each text.
const TEXT: &[u8] = b"12";

fn row(mut index: usize) -> [u32; WORDS] {
    let mut digit = |count: usize| {
        let digit = index % count;
        index /= count;
        digit as u32
    };
    let (kind, from, to) = (digit(KINDS), digit(TEXTS), digit(TEXTS));
    [kind, 0, 0, from, to, digit(PARENTS), digit(NEXTS), 0, 0]
}

fn table(rows: &[[u32; WORDS]]) -> Table {
    Table { words: rows.concat(), rows: rows.len(), text: TEXT.to_vec(), sound: None }
}

/// Every one of them.
pub fn all() -> impl Iterator<Item = Table> {
    let one = (0..ROWS).map(|index| table(&[row(index)]));
    let two = (0..ROWS * ROWS).map(|index| table(&[row(index / ROWS), row(index % ROWS)]));
    one.chain(two)
}

#[cfg(test)]
mod tests {
    use super::*;
    use crate::second::sound::sound;
    use crate::second::Second;

    /// The words of a table but those that soundness passes over.
    fn but_spans(words: &[u32]) -> Vec<[u32; 5]> {
        words.chunks_exact(WORDS).map(|row| [row[0], row[3], row[4], row[5], row[6]]).collect()
    }

    /// Of texts `1`, `2` and `12`, which integers, strings and bytes have, and floats have not.
    #[test]
    fn the_sound_ones_are_those_that_documents_give() {
        let scalars: Vec<String> = ["null", "false", "true", "[]", "{}", "1", "12"]
            .into_iter()
            .map(String::from)
            .chain(["", "1", "12"].into_iter().flat_map(|text| {
                let hex: String = text.bytes().map(|byte| format!("{byte:02x}")).collect();
                [format!("\"{text}\""), format!("<{hex}>")]
            }))
            .collect();
        let documents =
            scalars.iter().map(|one| format!("{one}\n")).chain(scalars.iter().map(|one| format!("[{one}]\n")));
        let mut given: Vec<_> =
            documents.map(|doc| but_spans(&Second::new().given(doc.as_bytes()).expect("a document").words)).collect();
        let mut found: Vec<_> =
            all().filter(|table| sound(&table.lent())).map(|table| but_spans(&table.words)).collect();
        given.sort();
        found.sort();
        assert_eq!(found, given);
    }
}

//! Files of documents with their answers: hex of the document, a tab, and
//! `no NUMBER PLACE` or `ok ROWS TEXTBYTES ESCAPES words,.. texthex`.

use crate::documents::grow::Meant;
use crate::hex;
use crate::second::{Given, Refusal, WORDS};

/// A document and the answer a file gives for it.
pub struct Vector {
    pub doc: Vec<u8>,
    pub meant: Meant,
}

/// The vectors of a file, or the number of its first bad line.
pub fn parse(file: &str) -> Result<Vec<Vector>, usize> {
    let vector = |line: &str| {
        let (doc, answer) = line.split_once('\t')?;
        Some(Vector { doc: hex::parse(doc)?, meant: meant(answer.trim_end())? })
    };
    file.lines().enumerate().map(|(i, line)| vector(line).ok_or(i + 1)).collect()
}

/// The vectors of a file with a name, or what is wrong with it.
pub fn load(path: &str) -> Result<Vec<Vector>, String> {
    let file = std::fs::read_to_string(path).map_err(|error| format!("{path}: {error}"))?;
    parse(&file).map_err(|line| format!("{path}:{line}: no vector"))
}

/// What an answer as such a file writes it says.
pub fn meant(answer: &str) -> Option<Meant> {
    let words: Vec<&str> = answer.split(' ').collect();
    match words[..] {
        ["no", number, place] => Some(Err(Refusal { number: number.parse().ok()?, place: place.parse().ok()? })),
        ["ok", rows, bytes, escapes, list, text] => {
            let words = list.split(',').map(|word| word.parse().ok()).collect::<Option<Vec<u32>>>()?;
            let (text, escapes) = (hex::parse(text)?, escapes.parse().ok()?);
            let counted =
                rows.parse().is_ok_and(|rows: usize| words.len() == rows * WORDS) && bytes.parse() == Ok(text.len());
            counted.then_some(Ok(Given { words, text, escapes }))
        }
        _ => None,
    }
}

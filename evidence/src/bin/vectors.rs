//! Compares the second reader and the slow checker of places with a file of
//! documents and answers: `vectors ../shared/vectors/base.tsv`.

use evidence::second::Second;
use evidence::vectors::{self, Vector};
use evidence::{hex, slow};
use std::process::ExitCode;

fn main() -> ExitCode {
    let Some(path) = std::env::args().nth(1) else {
        eprintln!("usage: vectors FILE");
        return ExitCode::from(2);
    };
    let list = match vectors::load(&path) {
        Ok(list) => list,
        Err(error) => {
            eprintln!("{error}");
            return ExitCode::from(2);
        }
    };
    let mut second = Second::new();
    let mut wrong = 0;
    for Vector { doc, meant } in &list {
        let answer = second.given(doc);
        let places = slow::answer(doc, 32);
        let wanted = meant.as_ref().map(|given| given.escapes).map_err(|refusal| *refusal);
        if answer != *meant || !slow::agrees(places, wanted) {
            wrong += 1;
            println!("{}\n  file {meant:?}\n  second reader {answer:?}\n  slow checker {places:?}", hex::show(doc));
        }
    }
    println!("{} documents, {wrong} differences", list.len());
    ExitCode::from(u8::from(wrong > 0 || list.is_empty()))
}

//! `yay check`: each file is a document, or its refusal is shown.

use crate::input::Form;
use crate::outline::escapes;
use crate::stop::{complain, Done, Stop};
use crate::told::Told;
use crate::words::Words;
use crate::{accepted::accept, input};
use std::ffi::OsStr;
use std::io::Write;
use yay::Document;

/// How many files were good, refused, and not read.
#[derive(Default)]
struct Tally {
    ok: usize,
    refused: usize,
    unread: usize,
}

pub fn run(words: &Words, out: &mut dyn Write) -> Done {
    if words.plain.is_empty() {
        return Err(words.wrong("needs one or more files"));
    }
    let (quiet, mut told, mut tally) = (words.has("--quiet"), Told::new(out), Tally::default());
    for file in &words.plain {
        match check(file, words.form(), quiet, &mut told) {
            Ok(()) => tally.ok += 1,
            Err(Stop::File(message)) => {
                told.flush();
                complain(&message);
                tally.unread += 1;
            }
            Err(_) => tally.refused += 1,
        }
    }
    if words.plain.len() > 1 && !quiet {
        told.line(&tally.line());
    }
    told.done()?;
    match tally {
        Tally { unread: 1.., .. } => Err(Stop::Unread),
        Tally { refused: 1.., .. } => Err(Stop::Refused),
        _ => Ok(()),
    }
}

impl Tally {
    fn line(&self) -> String {
        let line = format!("{} ok, {} refused", self.ok, self.refused);
        if self.unread == 0 {
            line
        } else {
            format!("{line}, {} not read", self.unread)
        }
    }
}

/// How much the document gives.
fn counts(document: &Document) -> String {
    let tree = document.tree();
    format!("{} rows, {} bytes of text{}", tree.rows(), tree.text_room().len(), escapes(document))
}

fn check(file: &OsStr, form: Form, quiet: bool, told: &mut Told) -> Done {
    let input = input::open(file, form)?;
    // What was said before stands before a refusal, also where both go to one file.
    told.flush();
    let document = accept(&input)?;
    if !quiet {
        told.line(&format!("{}: ok, {}", input.name, counts(&document)));
    }
    Ok(())
}

//! `yay write` and `yay fmt`: a document written back in the house style, and which files are in it.

use crate::accepted::accept;
use crate::input::{self, Form};
use crate::output;
use crate::stop::{complain, Done, Stop};
use crate::told::Told;
use crate::words::Words;
use std::ffi::OsStr;
use std::io::Write;

/// A file's bytes, and those of the house style.
struct Both {
    name: String,
    old: Vec<u8>,
    new: Vec<u8>,
}

/// Reads a file and writes it back; says why it is refused.
fn both(file: &OsStr, form: Form) -> Result<Both, Stop> {
    let input = input::open(file, form)?;
    let new = accept(&input)?.written().map_err(|no| {
        complain(&format!("{}: {no}", input.name));
        Stop::Refused
    })?;
    Ok(Both { name: input.name, old: input.bytes, new })
}

pub fn run(words: &Words, out: &mut dyn Write) -> Done {
    let new = both(words.one_file()?, words.form())?.new;
    match words.value("--output") {
        Some(file) if file != "-" => output::replace(file, &new),
        _ => Ok(out.write_all(&new)?),
    }
}

pub fn format(words: &Words, out: &mut dyn Write) -> Done {
    match (words.has("--check"), words.has("--output")) {
        (true, true) => Err(words.wrong("takes --check or --output, not both")),
        (true, false) if words.plain.is_empty() => Err(words.wrong("needs one or more files")),
        (true, false) => check(&words.plain, out),
        (false, _) if words.plain.len() > 1 => Err(words.wrong("writes one file at a time; --check takes more")),
        (false, _) => run(words, out),
    }
}

/// Names each file that is not in the house style. All are looked at.
fn check(files: &[impl AsRef<OsStr>], out: &mut dyn Write) -> Done {
    let (mut told, mut worst) = (Told::new(out), Ok(()));
    for file in files {
        // What was said before stands before a refusal, also where both go to one file.
        told.flush();
        match both(file.as_ref(), Form::Document) {
            Ok(Both { old, new, .. }) if old == new => {}
            Ok(Both { name, .. }) => {
                told.line(&name);
                worst = worst.and(Err(Stop::Refused));
            }
            Err(Stop::File(message)) => {
                complain(&message);
                worst = Err(Stop::Unread);
            }
            Err(stop) => worst = worst.and(Err(stop)),
        }
    }
    told.done()?;
    worst
}

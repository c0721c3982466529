//! `yay store`: a document's table as tagged fields, for a tablet to load.

use crate::accepted::accept;
use crate::input::{self, Form};
use crate::output;
use crate::stop::{complain, Done, Stop};
use crate::words::Words;
use std::io::{self, IsTerminal, Write};

pub fn run(words: &Words, out: &mut dyn Write) -> Done {
    let file = words.one_file()?;
    if words.value("--output").is_none() && io::stdout().is_terminal() {
        return Err(words.wrong("writes no text to a terminal: name a file behind -o, or insist with -o -"));
    }
    let input = input::open(file, Form::Document)?;
    let stored = accept(&input)?.stored().map_err(|no| {
        complain(&format!("{}: {no}", input.name));
        Stop::Refused
    })?;
    match words.value("--output") {
        Some(file) if file != "-" => output::replace(file, &stored),
        _ => Ok(out.write_all(&stored)?),
    }
}

//! Files that must hold a document, or a stored form where that is asked for.

use crate::input::{self, Form, Input};
use crate::refused;
use crate::stop::Stop;
use crate::words::Words;
use std::ffi::OsStr;
use yay::Document;

/// Reads a file, as what the words say it is; says why it is refused.
pub fn accepted(words: &Words, name: &OsStr) -> Result<Document, Stop> {
    accept(&input::open(name, words.form())?)
}

/// Reads or loads what a file held; says why it is refused.
pub fn accept(input: &Input) -> Result<Document, Stop> {
    match input.form {
        Form::Document => Document::read(&input.bytes).map_err(|refusal| refused::say(input, refusal)),
        Form::Stored => Document::load(&input.bytes).map_err(|unloaded| refused::say_unloaded(input, unloaded)),
    }
    .map_err(|()| Stop::Refused)
}

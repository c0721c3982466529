//! Files and standard input, what is said of those that cannot be read, and how their places are told.

use crate::stop::Stop;
use std::ffi::OsStr;
use std::fs::File;
use std::io::{self, ErrorKind, Read};
use yay::{position, shown, Place, LONGEST, LONGEST_STORED};

/// What the bytes of an input are to be.
#[derive(Clone, Copy, PartialEq, Eq)]
pub enum Form {
    Document,
    /// As `yay store` makes it: without lines.
    Stored,
}

impl Form {
    /// The most bytes that it has.
    pub fn longest(self) -> usize {
        match self {
            Form::Document => LONGEST,
            Form::Stored => LONGEST_STORED,
        }
    }
}

/// The bytes of a document or a stored form, at most one more than it may have, and what it is called.
pub struct Input {
    pub name: String,
    pub bytes: Vec<u8>,
    pub form: Form,
    /// How many bytes the file has, where that is known.
    pub length: Option<u64>,
}

impl Input {
    /// A place of the input behind its name: as line and column, or, where there are no lines, as a byte.
    pub fn at(&self, place: Place) -> String {
        match self.form {
            Form::Document => format!("{}:{}", self.name, position(&self.bytes, place)),
            Form::Stored => format!("{}: byte {}", self.name, place.0),
        }
    }
}

/// Reads a file, or standard input for `-`.
pub fn open(name: &OsStr, form: Form) -> Result<Input, Stop> {
    let mut input = Input { name: shown::plain(name.as_encoded_bytes()), bytes: Vec::new(), form, length: None };
    let read = if name == "-" {
        input.name = "(standard input)".into();
        take(&mut io::stdin().lock(), &mut input)
    } else {
        read_file(name, &mut input)
    };
    read.map_err(|error| Stop::File(format!("{}: {}", input.name, reason(&error))))?;
    Ok(input)
}

fn read_file(name: &OsStr, input: &mut Input) -> io::Result<()> {
    let mut file = File::open(name)?;
    let about = file.metadata()?;
    if about.is_dir() {
        return Err(io::Error::other("this is a directory, not a file"));
    }
    input.length = about.is_file().then_some(about.len());
    take(&mut file, input)
}

/// One byte more than it may have is enough to see that it is too long.
fn take(from: &mut impl Read, input: &mut Input) -> io::Result<()> {
    from.take(input.form.longest() as u64 + 1).read_to_end(&mut input.bytes)?;
    Ok(())
}

fn reason(error: &io::Error) -> String {
    match error.kind() {
        ErrorKind::NotFound => "there is no such file".into(),
        ErrorKind::PermissionDenied => "this file may not be read (permission denied)".into(),
        _ => error.to_string(),
    }
}

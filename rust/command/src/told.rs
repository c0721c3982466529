//! Standard output that may be closed while there is still work to do: what fails is kept, and nothing more is
//! written.

use crate::stop::Done;
use std::io::{self, ErrorKind, Write};

pub struct Told<'o> {
    out: &'o mut dyn Write,
    failed: Option<io::Error>,
}

impl<'o> Told<'o> {
    pub fn new(out: &'o mut dyn Write) -> Told<'o> {
        Told { out, failed: None }
    }

    pub fn line(&mut self, line: &str) {
        if self.failed.is_none() {
            self.failed = writeln!(self.out, "{line}").err();
        }
    }

    pub fn flush(&mut self) {
        if self.failed.is_none() {
            self.failed = self.out.flush().err();
        }
    }

    /// What could not be written is an error, unless whoever reads has seen enough.
    pub fn done(mut self) -> Done {
        self.flush();
        match self.failed {
            Some(error) if error.kind() != ErrorKind::BrokenPipe => Err(error.into()),
            _ => Ok(()),
        }
    }
}

//! Why a command ends without its answer, and the exit status that tells it.

use std::io::{self, ErrorKind, Write};

pub enum Stop {
    /// The words on the command line make no command; what is wrong, and the command whose page tells more.
    Usage(String, &'static str),
    /// A file could not be read; what is to be said of it.
    File(String),
    /// A file could not be read; said already.
    Unread,
    /// A document was refused, or a text is no integer's; said already.
    Refused,
    /// The document has not what was asked for; said already.
    Missing,
    /// The decision is to keep what is installed; said already.
    Keep,
    /// The decision is blocked by the floor; said already.
    Blocked,
    /// Standard output could not be written.
    Output(io::Error),
}

impl From<io::Error> for Stop {
    fn from(error: io::Error) -> Stop {
        Stop::Output(error)
    }
}

pub type Done = Result<(), Stop>;

/// Says what is still to be said; the exit status.
pub fn status(done: Done) -> u8 {
    match done {
        Ok(()) => 0,
        Err(Stop::Refused) => 1,
        Err(Stop::Unread) => 2,
        Err(Stop::Missing) => 3,
        Err(Stop::Keep) => 4,
        Err(Stop::Blocked) => 5,
        // Whoever reads has seen enough.
        Err(Stop::Output(error)) if error.kind() == ErrorKind::BrokenPipe => 0,
        Err(Stop::Output(error)) => complain(&format!("standard output: {error}")),
        Err(Stop::File(message)) => complain(&message),
        Err(Stop::Usage(message, "")) => complain(&format!("{message}; 'yay --help' lists the commands")),
        Err(Stop::Usage(message, command)) => complain(&format!("{message}; 'yay {command} --help' tells more")),
    }
}

pub fn complain(message: &str) -> u8 {
    let _ = writeln!(io::stderr(), "yay: {message}");
    2
}

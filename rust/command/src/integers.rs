//! `yay compare`: two integers, of any length, by numeric order.

use crate::stop::{complain, Done, Stop};
use crate::words::Words;
use std::io::Write;
use std::os::unix::ffi::OsStrExt;
use yay::compare;
use yay::shown::quoted;

pub fn run(words: &Words, out: &mut dyn Write) -> Done {
    let [left, right] = &words.plain[..] else {
        return Err(words.wrong("takes two integers"));
    };
    let (left, right) = (left.as_bytes(), right.as_bytes());
    match compare(left, right) {
        Ok(order) => Ok(writeln!(out, "{}", order as i32)?),
        Err(number) => {
            let wrong = if compare(left, left).is_err() { left } else { right };
            complain(&format!("{} ({}): {} is no integer's text", number.name(), number.code(), quoted(wrong)));
            Err(Stop::Refused)
        }
    }
}

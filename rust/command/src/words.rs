//! The words behind a command's name: options, in any order and up to `--`, and the rest.

use crate::input::Form;
use crate::pages::{Opt, Page};
use crate::stop::Stop;
use std::ffi::{OsStr, OsString};
use std::os::unix::ffi::OsStrExt;
use yay::shown::quoted;

pub struct Words {
    pub page: &'static Page,
    /// What is no option.
    pub plain: Vec<OsString>,
    /// Whether the command's page is asked for.
    pub help: bool,
    given: Vec<(&'static str, OsString)>,
}

impl Words {
    pub fn new(page: &'static Page, words: &[OsString]) -> Result<Words, Stop> {
        let mut parsed = Words { page, plain: Vec::new(), help: false, given: Vec::new() };
        let mut words = words.iter();
        while let Some(word) = words.next() {
            if word == "--" {
                parsed.plain.extend(words.cloned());
                break;
            }
            if page.is_option(word.as_bytes()) {
                parsed.take(word, &mut words)?;
            } else {
                parsed.plain.push(word.clone());
            }
        }
        Ok(parsed)
    }

    /// An option; its value stands behind `=`, or is the next word.
    fn take<'w>(&mut self, word: &OsStr, rest: &mut impl Iterator<Item = &'w OsString>) -> Result<(), Stop> {
        if word == "-h" || word == "--help" {
            self.help = true;
            return Ok(());
        }
        let bytes = word.as_bytes();
        let (name, behind) = match bytes.iter().position(|byte| *byte == b'=') {
            Some(at) if bytes.starts_with(b"--") => {
                (&bytes[..at], Some(OsStr::from_bytes(&bytes[at + 1..]).to_owned()))
            }
            _ => (bytes, None),
        };
        let option = self.page.options.iter().find(|option| option.is(name));
        let option = option.ok_or_else(|| self.wrong(&format!("has no option {}", quoted(name))))?;
        let value = match (option.value.is_empty(), behind) {
            (true, None) => OsString::new(),
            (true, Some(_)) => return Err(self.wrong(&format!("takes no value behind {}", option.long))),
            (false, Some(value)) => value,
            (false, None) => {
                let next = rest.next().cloned();
                next.ok_or_else(|| self.wrong(&format!("needs a value behind {}", option.long)))?
            }
        };
        self.given.push((option.long, value));
        Ok(())
    }

    /// What is wrong with the words of this command.
    pub fn wrong(&self, what: &str) -> Stop {
        Stop::Usage(format!("{} {what}", self.page.name), self.page.name)
    }

    pub fn has(&self, long: &str) -> bool {
        self.value(long).is_some()
    }

    /// What the files are to be.
    pub fn form(&self) -> Form {
        if self.has("--stored") {
            Form::Stored
        } else {
            Form::Document
        }
    }

    /// An option's value; of two the last.
    pub fn value(&self, long: &str) -> Option<&OsStr> {
        self.given.iter().rev().find(|(name, _)| *name == long).map(|(_, value)| value.as_os_str())
    }

    pub fn one_file(&self) -> Result<&OsStr, Stop> {
        match &self.plain[..] {
            [file] => Ok(file),
            [] => Err(self.wrong("needs a file")),
            _ => Err(self.wrong("reads one file at a time")),
        }
    }
}

impl Page {
    /// Whether a word is an option, known or not. A lone `-` is a file, and `-1` may be an integer.
    fn is_option(&self, word: &[u8]) -> bool {
        match word {
            [b'-', digit, ..] if self.integers => !digit.is_ascii_digit(),
            [b'-', _, ..] => true,
            _ => false,
        }
    }
}

impl Opt {
    fn is(&self, name: &[u8]) -> bool {
        name == self.long.as_bytes() || !self.short.is_empty() && name == self.short.as_bytes()
    }
}

#[cfg(test)]
mod tests {
    use super::*;
    use crate::pages::PAGES;

    fn parsed(command: &str, words: &[&str]) -> Result<Words, String> {
        let page = PAGES.iter().find(|page| page.name == command).unwrap();
        let words: Vec<OsString> = words.iter().map(OsString::from).collect();
        Words::new(page, &words).map_err(|stop| match stop {
            Stop::Usage(message, _) => message,
            _ => "another stop".into(),
        })
    }

    #[test]
    fn options_stand_anywhere_up_to_two_dashes() {
        let words = parsed("get", &["f", "--json", "k", "--default=x=y", "--", "--raw", "-h"]).unwrap();
        assert_eq!(words.plain, ["f", "k", "--raw", "-h"]);
        assert_eq!((words.has("--json"), words.has("--raw"), words.help), (true, false, false));
        assert_eq!(words.value("--default"), Some(OsStr::new("x=y")));
    }

    #[test]
    fn values_stand_behind_an_equals_sign_or_next() {
        for words in [&["--numbers", "text", "f"][..], &["f", "--numbers=text"], &["--numbers=json", "--numbers=text"]]
        {
            assert_eq!(parsed("json", words).unwrap().value("--numbers"), Some(OsStr::new("text")));
        }
    }

    #[test]
    fn what_is_unknown_is_named() {
        let wrong = |command, words: &[&str]| parsed(command, words).err().unwrap();
        assert_eq!(wrong("check", &["-x"]), "check has no option \"-x\"");
        assert_eq!(wrong("check", &["--quiet=1"]), "check takes no value behind --quiet");
        assert_eq!(wrong("json", &["f", "--numbers"]), "json needs a value behind --numbers");
        assert_eq!(wrong("show", &["--no=1"]), "show has no option \"--no\"");
        assert_eq!(wrong("compare", &["-x", "1"]), "compare has no option \"-x\"");
    }

    #[test]
    fn files_and_integers_are_no_options() {
        assert_eq!(parsed("check", &["-", "a-b"]).unwrap().plain, ["-", "a-b"]);
        assert_eq!(parsed("compare", &["-10", "9"]).unwrap().plain, ["-10", "9"]);
    }
}

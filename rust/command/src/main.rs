//! `yay`: reads and writes YAY documents for people and scripts, decides on upgrades, lays profiles over each other, and
//! stores and loads them for the tablet.

mod accepted;
mod batch;
mod check;
mod decide;
mod get;
mod input;
mod integers;
mod json;
mod numbers;
mod outline;
mod output;
mod overlay;
mod pages;
mod quote;
mod refused;
mod rows;
mod stop;
mod store;
mod told;
mod words;
mod write;

use accepted::accepted;
use std::ffi::OsString;
use std::io::{self, BufWriter, Write};
use std::process::ExitCode;
use stop::{status, Done, Stop};
use words::Words;
use yay::shown::quoted;

fn run(words: &[OsString], out: &mut dyn Write) -> Done {
    let (command, rest) = words.split_first().ok_or(Stop::Usage("a command is missing".into(), ""))?;
    match (command.to_str().unwrap_or_default(), rest) {
        ("--help" | "-h", _) | ("help", []) => Ok(write!(out, "{}", pages::all())?),
        ("--version" | "-V", _) => Ok(writeln!(out, "yay {}", env!("CARGO_PKG_VERSION"))?),
        ("help", [command, ..]) => Ok(write!(out, "{}", pages::one(page(command)?))?),
        _ => run_command(&Words::new(page(command)?, rest)?, out),
    }
}

fn page(command: &OsString) -> Result<&'static pages::Page, Stop> {
    let page = pages::PAGES.iter().find(|page| command == page.name);
    let what = if command.as_encoded_bytes().starts_with(b"-") { "option" } else { "command" };
    let wrong = || Stop::Usage(format!("there is no {what} {}", quoted(command.as_encoded_bytes())), "");
    page.ok_or_else(wrong)
}

fn run_command(words: &Words, out: &mut dyn Write) -> Done {
    if words.help {
        return Ok(write!(out, "{}", pages::one(words.page))?);
    }
    match words.page.name {
        "check" => check::run(words, out),
        "show" => outline::run(words, out),
        "rows" => rows::write(&accepted(words, words.one_file()?)?.tree(), out),
        "get" => get::run(words, out),
        "json" => json::run(words, out),
        "write" => write::run(words, out),
        "fmt" => write::format(words, out),
        "decide" => decide::run(words, out),
        "overlay" => overlay::run(words, out),
        "store" => store::run(words, out),
        "load" => outline::run_loaded(words, out),
        "compare" => integers::run(words, out),
        "batch" if words.plain.is_empty() => batch::run(&mut io::stdin().lock(), out),
        "batch" => Err(words.wrong("takes its documents from standard input alone")),
        name => unreachable!("a page without a command: {name}"),
    }
}

fn main() -> ExitCode {
    let words: Vec<OsString> = std::env::args_os().skip(1).collect();
    let mut out = BufWriter::new(io::stdout().lock());
    let done = run(&words, &mut out);
    // What was refused stays refused, also where nobody reads the rest.
    let flushed = out.flush().map_err(Stop::Output);
    ExitCode::from(status(done.and(flushed)))
}

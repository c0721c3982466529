//! `yay decide`: whether to install what a release sheet names, and why. The decision and the numbers are the proved
//! function's; the sentences are read off the tables.

use crate::accepted::accept;
use crate::input::{self, Form, Input};
use crate::outline::broken;
use crate::refused;
use crate::stop::{Done, Stop};
use crate::told::Told;
use crate::words::Words;
use std::ffi::OsStr;
use std::io::Write;
use std::os::unix::ffi::OsStrExt;
use yay::{decide, installed_fault, sheet_fault, Decision, Document, Fault, Number, Row, Tree, Undecided, ROOT};

/// Numbers of more digits than this are cut.
const MOST: usize = 40;
const SHOWN: usize = 20;

/// A document that was read, and the input that it came from.
struct Side {
    input: Input,
    document: Document,
}

pub fn run(words: &Words, out: &mut dyn Write) -> Done {
    let [sheet, installed] = inputs(words)?.map(side);
    let (sheet, installed) = (sheet?, installed?);
    let trees = (sheet.document.tree(), installed.document.tree());
    let decision = decide(&trees.0, &trees.1).map_err(|undecided| say(undecided, &sheet, &installed))?;
    let mut told = Told::new(out);
    told.line(&format!("{}: {}", decision.name(), reason(decision, &trees.0, &trees.1)?));
    // A decision whose reader has gone is still the exit status; one that could not be written is none.
    told.done()?;
    match decision {
        Decision::Install => Ok(()),
        Decision::Keep => Err(Stop::Keep),
        Decision::Blocked => Err(Stop::Blocked),
    }
}

/// The sheet's file, and the file or the text of the installed version.
fn inputs(words: &Words) -> Result<[Input; 2], Stop> {
    match (&words.plain[..], words.value("--installed")) {
        ([sheet, installed], None) if sheet == "-" && installed == "-" => {
            Err(words.wrong("takes standard input for one of the two"))
        }
        ([sheet, installed], None) => Ok([input::open(sheet, words.form())?, input::open(installed, words.form())?]),
        ([sheet], Some(text)) => Ok([input::open(sheet, words.form())?, given(text)]),
        ([_, _], Some(_)) => Err(words.wrong("takes INSTALLED or --installed, not both")),
        _ => Err(words.wrong("needs a sheet and an installed version")),
    }
}

/// A document as it stands on the command line, where its last line need not end.
fn given(text: &OsStr) -> Input {
    let mut bytes = text.as_bytes().to_vec();
    if !bytes.ends_with(b"\n") {
        bytes.push(b'\n');
    }
    Input { name: "--installed".into(), bytes, form: Form::Document, length: None }
}

fn side(input: Input) -> Result<Side, Stop> {
    let document = accept(&input)?;
    Ok(Side { input, document })
}

/// Says why there is no decision.
fn say(undecided: Undecided, sheet: &Side, installed: &Side) -> Stop {
    let (side, fault): (_, fn(&Tree) -> Option<Fault>) = match undecided {
        Undecided::Sheet => (sheet, sheet_fault),
        Undecided::Installed => (installed, installed_fault),
    };
    let (tree, number) = (side.document.tree(), undecided.number());
    let fault = fault(&tree).unwrap_or(Fault { row: ROOT, sentence: number.meaning().into() });
    match tree.span(fault.row) {
        Ok(span) => refused::say_wrong(&side.input, number, span.start, &fault.sentence),
        Err(number) => return broken(number),
    }
    Stop::Refused
}

fn reason(decision: Decision, sheet: &Tree, installed: &Tree) -> Result<String, Stop> {
    let of = |key| sheet.find(ROOT, key).and_then(|row| shown(sheet, row)).map_err(broken);
    let (version, floor) = (of("version")?, of("floor")?);
    let installed = shown(installed, ROOT).map_err(broken)?;
    Ok(match decision {
        Decision::Install => {
            format!("version {version} is above the installed {installed}, which is not below the floor {floor}")
        }
        Decision::Keep => format!("version {version} is not above the installed {installed}"),
        Decision::Blocked => {
            format!("version {version} is above the installed {installed}, but that is below the floor {floor}")
        }
    })
}

/// A version as in a document.
fn shown(tree: &Tree, row: Row) -> Result<String, Number> {
    let places: Result<Vec<_>, _> = tree.children(row).map(|place| tree.text(place).map(digits)).collect();
    Ok(format!("[{}]", places?.join(", ")))
}

fn digits(text: &[u8]) -> String {
    let digits = String::from_utf8_lossy(text);
    match digits.len() {
        0..=MOST => digits.into(),
        count => format!("{}… ({count} digits)", &digits[..SHOWN]),
    }
}

//! Why a table is no release sheet, or no installed version, in a sentence. The number is the proved function's; what is
//! said here is read off the table and tested against it.

use crate::limits::{IMAGE, PLACES};
use crate::refusal::Number;
use crate::shown::quoted;
use crate::tree::{Kind, Row, Tree, ROOT};
use crate::writing::sound;
use std::fmt;

/// The first thing that is wrong with a sheet or an installed version.
#[derive(Clone, PartialEq, Eq, Debug)]
pub struct Fault {
    /// The row that is wrong, or that has not what it needs.
    pub row: Row,
    /// What is wrong, without a full stop.
    pub sentence: String,
}

impl fmt::Display for Fault {
    fn fmt(&self, out: &mut fmt::Formatter) -> fmt::Result {
        out.write_str(&self.sentence)
    }
}

/// The keys of a sheet.
const KEYS: [&str; 3] = ["version", "floor", "image"];
const SHEET: &str = "a sheet has the keys version, floor and image, and no other";

/// Why a table is no release sheet; nothing if it is one.
///
/// ```
/// let document = yay::Document::read(b"version: [10, -2]\nfloor: [9]\n")?;
/// let fault = yay::sheet_fault(&document.tree()).unwrap();
/// assert_eq!(fault.to_string(), "the key image is missing; a sheet has the keys version, floor and image, and no other");
/// # Ok::<(), Box<dyn std::error::Error>>(())
/// ```
pub fn sheet_fault(tree: &Tree) -> Option<Fault> {
    found(tree, sheet)
}

/// Why a table is no installed version; nothing if it is one.
pub fn installed_fault(tree: &Tree) -> Option<Fault> {
    found(tree, |tree| version(tree, ROOT, "an installed version"))
}

type Tested = Result<(), Fault>;

fn fault(row: Row, sentence: impl Into<String>) -> Fault {
    Fault { row, sentence: sentence.into() }
}

fn found(tree: &Tree, test: impl Fn(&Tree) -> Tested) -> Option<Fault> {
    if sound(tree) {
        test(tree).err()
    } else {
        Some(fault(ROOT, "the table is not sound: no document gives it"))
    }
}

/// A sound table answers every question that is asked of it here.
fn broken(row: Row) -> impl Fn(Number) -> Fault {
    move |number| fault(row, number.to_string())
}

fn sheet(tree: &Tree) -> Tested {
    of_kind(tree, ROOT, Kind::Object, "a sheet")?;
    for key in KEYS {
        if tree.find(ROOT, key) == Err(Number::None) {
            return Err(fault(ROOT, format!("the key {key} is missing; {SHEET}")));
        }
    }
    for key in tree.children(ROOT).step_by(2) {
        let text = tree.text(key).map_err(broken(key))?;
        if KEYS.iter().all(|known| known.as_bytes() != text) {
            return Err(fault(key, format!("the key {} is too much; {SHEET}", quoted(text))));
        }
    }
    let value = |key: &str| tree.find(ROOT, key).map_err(broken(ROOT));
    version(tree, value("version")?, "version")?;
    version(tree, value("floor")?, "floor")?;
    image(tree, value("image")?)
}

/// Whether a row has a kind; `what` names it.
fn of_kind(tree: &Tree, row: Row, wanted: Kind, what: &str) -> Tested {
    let kind = tree.kind(row).map_err(broken(row))?;
    if kind == wanted {
        return Ok(());
    }
    Err(fault(row, format!("{what} is {}, and this is {}", wanted.with_article(), kind.with_article())))
}

fn version(tree: &Tree, row: Row, what: &str) -> Tested {
    of_kind(tree, row, Kind::Array, what)?;
    let count = tree.count(row).map_err(broken(row))?;
    if !(1..=PLACES).contains(&count) {
        return Err(fault(row, format!("{what} has 1 to {PLACES} places, and this has {count}")));
    }
    tree.children(row).try_for_each(|place| natural(tree, place, what))
}

fn natural(tree: &Tree, row: Row, what: &str) -> Tested {
    of_kind(tree, row, Kind::Integer, &format!("each place of {what}"))?;
    let text = tree.text(row).map_err(broken(row))?;
    if text.starts_with(b"-") {
        return Err(fault(row, format!("each place of {what} is not below zero, and this is")));
    }
    Ok(())
}

fn image(tree: &Tree, row: Row) -> Tested {
    of_kind(tree, row, Kind::Bytes, "image")?;
    match tree.text(row).map_err(broken(row))?.len() {
        IMAGE => Ok(()),
        count => Err(fault(row, format!("image has {IMAGE} bytes, and this has {count}"))),
    }
}

//! Reads and writes YAY documents, decides on upgrades, lays one profile over another, and stores profiles in a form that is
//! loaded faster than it is read, by functions proved in Rattle (`libyay.a`, include/yay.h).
//!
//! [`read`] fills rooms that the caller lends and allocates nothing; [`Document`] is the same with rooms of its
//! own. A [`Tree`] answers questions, and knows each row's line and column; both tell how many escapes a document
//! has. Every answer is fixed by the project's definitions, for any bytes at all.
//! What stack a call needs is said in include/yay.h.
//!
//! ```
//! let document = yay::Document::read(b"battery:\n  capacity: 10 400\n  low-at: 0.15\n")?;
//! let tree = document.tree();
//! let capacity = tree.path(yay::ROOT, &["battery", "capacity"])?;
//! assert_eq!(tree.integer(capacity)?, 10_400);
//! # Ok::<(), Box<dyn std::error::Error>>(())
//! ```
//!
//! With rooms lent, and integers of any length:
//!
//! ```
//! let doc = b"battery:\n  capacity: 10 400\n";
//! let (mut table, mut text) = ([0; 64 * yay::WORDS], [0; 64]);
//! let tree = yay::read(doc, &mut table, &mut text)?.tree;
//! let battery = tree.find(yay::ROOT, "battery")?;
//! let capacity = tree.text(tree.find(battery, "capacity")?)?;
//! assert_eq!(capacity, b"10400");
//! assert!(yay::compare(capacity, b"9999")?.is_gt());
//! # Ok::<(), Box<dyn std::error::Error>>(())
//! ```
//!
//! [`write`] and [`written`] make a document of a table, in one house style; [`sound`] tells whether there is one:
//!
//! ```
//! let document = yay::Document::read(b"doors: [1, 22]  # of the cold store\n")?;
//! assert_eq!(document.written()?, b"doors:\n  - 1\n  - 22\n");
//! # Ok::<(), Box<dyn std::error::Error>>(())
//! ```
//!
//! [`decide`] tells whether what a release sheet names is to be installed over what is there:
//!
//! ```
//! let image = "9f86d081884c7d659a2feaa0c55ad015a3bf4f1b2b0b822cd15d6c15b0f00a08";
//! let sheet = yay::Document::read(format!("version: [10]\nfloor: [9]\nimage: <{image}>\n").as_bytes())?;
//! let installed = yay::Document::read(b"[9, 4]\n")?;
//! assert_eq!(yay::decide(&sheet.tree(), &installed.tree())?, yay::Decision::Install);
//! # Ok::<(), Box<dyn std::error::Error>>(())
//! ```
//!
//! [`overlay`] and [`Document::overlaid`] lay one tree over another; [`clash`] names the key on which that fails:
//!
//! ```
//! let fleet = yay::Document::read(b"battery: {low-at: 0.15}\n")?;
//! let site = yay::Document::read(b"battery: {spare: true}\nname: \"A\"\n")?;
//! assert_eq!(fleet.overlaid(&site.tree())?.written()?, b"battery:\n  low-at: 0.15\n  spare: true\nname: \"A\"\n");
//! # Ok::<(), Box<dyn std::error::Error>>(())
//! ```
//!
//! [`store`] and [`Document::stored`] make the form that tablets keep of a table, and [`load`] and [`Document::load`] give
//! the same tree from it; [`form_fault`] says why bytes are none:
//!
//! ```
//! let stored = yay::Document::read(b"image-channel: \"stable\"  # for now\n")?.stored()?;
//! let document = yay::Document::load(&stored)?;
//! assert_eq!(document.tree().str(document.tree().find(yay::ROOT, "image-channel")?)?, "stable");
//! assert_eq!(yay::Document::load(&stored[1..]), Err(yay::Unloaded::Form));
//! # Ok::<(), Box<dyn std::error::Error>>(())
//! ```
//!
//! A refusal says why and where, and with the document at hand in a sentence that helps:
//!
//! ```
//! let doc = b"version: [1,2]\n";
//! let refusal = yay::Document::read(doc).unwrap_err();
//! assert_eq!((refusal.number, refusal.place), (yay::Number::Syntax, yay::Place(12)));
//! assert_eq!(refusal.to_string(), "SYNTAX (3): no document goes on like this, at 1:13 (byte 12)");
//! assert_eq!(refusal.sentence(doc), "\"2\" may not stand here; one space must follow \",\"");
//! ```

mod deciding;
mod document;
mod fault;
mod form;
mod limits;
mod overlaying;
mod path;
mod place;
mod reading;
mod refusal;
mod repeat;
mod sentence;
pub mod shown;
mod storing;
mod sys;
mod tree;
mod values;
mod writing;

pub use deciding::{decide, Decision, Undecided};
pub use document::Document;
pub use fault::{installed_fault, sheet_fault, Fault};
pub use form::{form_fault, FormFault};
pub use limits::{IMAGE, LONGEST, LONGEST_STORED, MOST, NAMES, NESTING, PLACES, WORDS};
pub use overlaying::{clash, overlay, Clash, Unlaid};
pub use path::Missing;
pub use place::{line_around, position, Place, Position};
pub use reading::{compare, read, Accepted};
pub use refusal::{Number, Refusal};
pub use repeat::first_key;
pub use storing::{load, store, stored, Unloaded, Unstored};
pub use tree::{Children, Kind, Row, Tree, ROOT};
pub use values::{Mismatch, Pairs};
pub use writing::{sound, write, written, Unwritten};

/// The program of rust/README.md, so that it is compiled with the other examples.
#[cfg(doctest)]
#[doc = include_str!("../../README.md")]
pub struct Readme;

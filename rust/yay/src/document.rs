//! The owned form: a document with rooms of its own.

use crate::limits::{LONGEST, LONGEST_STORED, WORDS};
use crate::overlaying::{overlay, Unlaid};
use crate::reading::{read, Accepted};
use crate::refusal::Refusal;
use crate::storing::{load, stored, Unloaded, Unstored};
use crate::tree::Tree;
use crate::writing::{written, Unwritten};

/// An accepted document's rows and text, or those of one laid over another or loaded from its stored form, in memory of its
/// own, and how many escapes it has.
///
/// ```
/// let document = yay::Document::read(b"low-at: 0.15\nnames: [\"A\", \"B\"]\n")?;
/// let tree = document.tree();
/// let names = tree.find(yay::ROOT, "names")?;
/// let texts: Vec<_> = tree.children(names).map(|row| tree.text(row).unwrap()).collect();
/// assert_eq!(texts, [b"A", b"B"]);
/// # Ok::<(), Box<dyn std::error::Error>>(())
/// ```
#[derive(Clone, PartialEq, Eq, Debug)]
pub struct Document {
    table: Vec<u32>,
    text: Vec<u8>,
    escapes: usize,
}

impl Document {
    /// Reads with rooms that are large enough for any document of that length.
    pub fn read(doc: &[u8]) -> Result<Document, Refusal> {
        let room = doc.len().min(LONGEST);
        let (mut table, mut text) = (vec![0; room * WORDS], vec![0; room]);
        let Accepted { tree, escapes } = read(doc, &mut table, &mut text)?;
        let (rows, bytes) = (tree.rows(), tree.text_room().len());
        table.truncate(rows * WORDS);
        text.truncate(bytes);
        Ok(Document { table, text, escapes })
    }

    /// Loads a stored form, with rooms that are large enough for any of that length; see [`load`](crate::load). What it
    /// gives has its spans in the stored bytes, and no lines, columns and escapes.
    ///
    /// ```
    /// use yay::Document;
    /// let stored = Document::read(b"low-at: 0.15  # of 1\n")?.stored()?;
    /// let document = Document::load(&stored)?;
    /// assert_eq!(document.written()?, b"low-at: 0.15\n");
    /// assert_eq!(document.stored()?, stored);
    /// # Ok::<(), Box<dyn std::error::Error>>(())
    /// ```
    pub fn load(stored: &[u8]) -> Result<Document, Unloaded> {
        let room = stored.len().min(LONGEST_STORED);
        let (mut table, mut text) = (vec![0; room / 3 * WORDS], vec![0; room]);
        let tree = load(stored, &mut table, &mut text)?;
        let (rows, bytes) = (tree.rows(), tree.text_room().len());
        table.truncate(rows * WORDS);
        text.truncate(bytes);
        Ok(Document { table, text, escapes: 0 })
    }

    pub fn tree(&self) -> Tree<'_> {
        Tree::new(&self.table, self.table.len() / WORDS, &self.text)
    }

    /// The document written back in the house style; [`Unwritten::Long`](crate::Unwritten) where that takes too many
    /// bytes.
    pub fn written(&self) -> Result<Vec<u8>, Unwritten> {
        written(&self.tree())
    }

    /// The document as tagged fields, as a tablet keeps it. What was read is always stored; of what was laid over another,
    /// more than [`LONGEST_STORED`] bytes are [`Unstored::Short`](crate::Unstored).
    pub fn stored(&self) -> Result<Vec<u8>, Unstored> {
        stored(&self.tree())
    }

    /// Another tree laid over this document's; see [`overlay`](crate::overlay). The rooms are always large enough, unless
    /// the result has more rows or text than any room counts for. What it gives has no spans, lines, columns and escapes.
    ///
    /// ```
    /// use yay::Document;
    /// let fleet = Document::read(b"channel: 'stable'\ndoors: [1, 2]\n")?;
    /// let site = Document::read(b"doors: [3]\nname: 'A'\n")?;
    /// assert_eq!(fleet.overlaid(&site.tree())?.written()?, b"channel: \"stable\"\ndoors:\n  - 3\nname: \"A\"\n");
    /// # Ok::<(), Box<dyn std::error::Error>>(())
    /// ```
    pub fn overlaid(&self, upper: &Tree) -> Result<Document, Unlaid> {
        let mut table = vec![0; self.table.len() + upper.table().len()];
        let mut text = vec![0; self.text.len() + upper.text_room().len()];
        let laid = overlay(&self.tree(), upper, &mut table, &mut text)?;
        let (rows, bytes) = (laid.rows(), laid.text_room().len());
        table.truncate(rows * WORDS);
        text.truncate(bytes);
        Ok(Document { table, text, escapes: 0 })
    }

    /// How many escapes the document's quoted keys and strings have; [`Accepted::escapes`] says what counts.
    pub fn escapes(&self) -> usize {
        self.escapes
    }
}

//! One plain sentence on why a document is refused: that of the first row of the table which the bytes around the
//! place show.

mod at;
mod characters;
mod filled;
mod lines;
mod marks;
mod plain;
mod quoted;
mod scan;
mod table;
#[cfg(test)]
mod tests;

use crate::place::Place;
use crate::refusal::Refusal;
use at::At;
use filled::fill;
use table::TABLE;

impl Refusal {
    /// What is wrong, in one plain sentence without a full stop, and a hint where the bytes of the document around
    /// the place show the mistake. The document is the one that was refused.
    ///
    /// ```
    /// let doc = b"a: 1 # one\n";
    /// let refusal = yay::Document::read(doc).unwrap_err();
    /// assert_eq!(refusal.sentence(doc), "\"#\" may not stand here; two spaces must stand before a comment");
    /// ```
    pub fn sentence(&self, doc: &[u8]) -> String {
        let place = if self.position.is_some() { self.place } else { Place(0) };
        let at = At::new(doc, place);
        match TABLE.iter().find(|row| row.number == self.number && (row.shows)(&at)) {
            Some(row) => fill(row.says, &at),
            None => self.number.meaning().into(),
        }
    }
}

//! The bytes around a refusal's place, and what the reader says of a document mended there.

use crate::document::Document;
use crate::place::{line_around, Place};
use crate::refusal::Number;
use std::ops::Range;

pub struct At<'d> {
    pub doc: &'d [u8],
    pub place: usize,
    /// The first byte of the place's line, and its LF or the document's end.
    pub start: usize,
    pub end: usize,
}

impl<'d> At<'d> {
    pub fn new(doc: &'d [u8], place: Place) -> At<'d> {
        let (start, end) = line_around(doc, place);
        At { doc, place: place.0.min(doc.len()), start, end }
    }

    pub fn byte(&self) -> Option<u8> {
        self.doc.get(self.place).copied()
    }

    pub fn is_byte(&self, byte: u8) -> bool {
        self.byte() == Some(byte)
    }

    pub fn line(&self) -> &'d [u8] {
        &self.doc[self.start..self.end]
    }

    /// The line up to the place.
    pub fn before(&self) -> &'d [u8] {
        &self.doc[self.start..self.place]
    }

    /// The line from the place on.
    pub fn rest(&self) -> &'d [u8] {
        &self.doc[self.place..self.end]
    }

    /// The lines above that of the place, the nearest first, without their LF.
    pub fn above(&self) -> impl Iterator<Item = &'d [u8]> {
        let above = self.doc[..self.start].strip_suffix(b"\n");
        above.into_iter().flat_map(|above| above.rsplit(|byte| *byte == b'\n'))
    }

    /// Whether nothing but spaces stands on the line before the place.
    pub fn is_first(&self) -> bool {
        self.before().iter().all(|byte| *byte == b' ')
    }

    /// The line without the spaces that it begins with.
    pub fn content(&self) -> &'d [u8] {
        self.line().trim_ascii_start()
    }

    /// The spaces just before the place and from it on.
    pub fn spaces(&self) -> Range<usize> {
        let from = self.start + trim_spaces(self.before()).len();
        let more = self.rest().iter().take_while(|byte| **byte == b' ').count();
        from..self.place + more
    }

    /// Whether some document goes on from the place with these bytes instead.
    pub fn goes_on(&self, bytes: &[u8]) -> bool {
        goes_on(&self.doc[..self.place], bytes)
    }

    /// Whether some document has these bytes where the place's line begins.
    pub fn line_goes_on(&self, bytes: &[u8]) -> bool {
        goes_on(&self.doc[..self.start], bytes)
    }

    /// Whether the reader passes the place and all that stands instead, once other bytes stand for these.
    pub fn helps(&self, cut: Range<usize>, instead: &[u8]) -> bool {
        let mended = [&self.doc[..cut.start], instead, &self.doc[cut.end..]].concat();
        let place = cut.start + instead.len() + self.place.saturating_sub(cut.end);
        reach(&mended) > place.min(mended.len().saturating_sub(1))
    }
}

fn goes_on(start: &[u8], bytes: &[u8]) -> bool {
    let tried = [start, bytes].concat();
    reach(&tried) == tried.len()
}

/// How many bytes some document begins with.
fn reach(doc: &[u8]) -> usize {
    match Document::read(doc) {
        Err(refusal) if refusal.number != Number::Repeat => refusal.place.0,
        _ => doc.len(),
    }
}

/// Whether a line end is all that is missing.
pub fn is_whole(doc: &[u8]) -> bool {
    Document::read(&[doc, b"\n"].concat()).is_ok()
}

pub fn trim_spaces(bytes: &[u8]) -> &[u8] {
    let kept = bytes.iter().rposition(|byte| *byte != b' ').map_or(0, |last| last + 1);
    &bytes[..kept]
}

//! A line of a document as it may be shown, with a caret under a place.

use yay::shown::{pieces, Piece};
use yay::{line_around, Place};

/// Columns of a line that are shown.
const MOST: usize = 72;
/// Columns that stay before the place where a line is cut.
const BEFORE: usize = 40;

/// The line of a place as shown, and the columns before the caret. Spaces that end the line are shown as ␠, and the
/// line's LF, where the caret stands under it, as ⏎.
pub fn quote(doc: &[u8], place: Place) -> (String, usize) {
    let (start, end) = line_around(doc, place);
    let offset = place.0.min(doc.len()) - start;
    let mut pieces = pieces(&doc[start..end]);
    mark_spaces(&mut pieces);
    let at = pieces.iter().position(|piece| piece.to > offset).unwrap_or(pieces.len());
    if at == pieces.len() && end < doc.len() {
        pieces.push(Piece { to: offset + 1, text: "⏎".into(), width: 1 });
    }
    let first = cut_before(&pieces, at);
    let (mut shown, mut used) = (String::from(if first > 0 { "…" } else { "" }), usize::from(first > 0));
    let mut caret = used;
    for (index, piece) in pieces.iter().enumerate().skip(first) {
        if used + piece.width > MOST {
            shown.push('…');
            break;
        }
        if index < at {
            caret += piece.width;
        }
        shown.push_str(&piece.text);
        used += piece.width;
    }
    (shown, caret)
}

fn mark_spaces(pieces: &mut [Piece]) {
    for piece in pieces.iter_mut().rev().take_while(|piece| piece.text == " ") {
        piece.text = "␠".into();
    }
}

/// The first piece shown: 0 unless the line is too long and the place stands far in it.
fn cut_before(pieces: &[Piece], at: usize) -> usize {
    let whole: usize = pieces.iter().map(|piece| piece.width).sum();
    let mut before: usize = pieces[..at].iter().map(|piece| piece.width).sum();
    if whole <= MOST || before <= BEFORE {
        return 0;
    }
    let mut first = 0;
    while before > BEFORE {
        before -= pieces[first].width;
        first += 1;
    }
    first
}

#[cfg(test)]
mod tests {
    use super::*;

    fn at(doc: &[u8], place: usize) -> (String, usize) {
        quote(doc, Place(place))
    }

    #[test]
    fn what_ends_a_line_is_seen() {
        assert_eq!(at(b"", 0), ("".into(), 0));
        assert_eq!(at(b"a: 1  \n", 6), ("a: 1␠␠⏎".into(), 6));
        assert_eq!(at(b"a: 1\nb", 6), ("b".into(), 1));
        assert_eq!(at(b"a: 1\n", 5), ("".into(), 0));
        assert_eq!(at(b"  b: 1\n", 0), ("  b: 1".into(), 0));
    }

    #[test]
    fn carets_stand_under_their_character() {
        assert_eq!(at("日本x\n".as_bytes(), 6), ("日本x".into(), 4));
        assert_eq!(at(b"\xe6\x97x\n", 2), ("\\xe6\\x97x".into(), 8));
        assert_eq!(at(b"a:\tx", 2), ("a:\\tx".into(), 2));
        assert_eq!(at(b"a:\xc2\xa0x\n", 2), ("a:\\u{a0}x".into(), 2));
    }

    #[test]
    fn long_lines_are_cut_around_the_place() {
        let mut doc = vec![b'a'; 1000];
        doc[500] = b'X';
        let (line, caret) = at(&doc, 500);
        assert_eq!(line.chars().nth(caret), Some('X'));
        assert!(line.starts_with('…') && line.ends_with('…') && line.chars().count() <= MOST + 1);
        let (line, caret) = at(&doc, 1000);
        assert_eq!((line.chars().count(), caret), (1 + BEFORE, 1 + BEFORE));
        let (line, caret) = at(&doc, 3);
        assert_eq!((line.chars().count(), caret), (MOST + 1, 3));
    }
}

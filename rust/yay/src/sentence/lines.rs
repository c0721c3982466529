//! What the lines above the place, and the columns of its own line, show.

use super::at::{trim_spaces, At};
use super::scan::scan;
use crate::document::Document;
use crate::repeat::quoted_length;

/// Whether no line above is anything but a comment at column 1.
pub fn is_above_root(at: &At) -> bool {
    at.above().all(|line| line.starts_with(b"#"))
}

/// Whether the line is one comment, and the place in front of it.
pub fn is_comment_line(at: &At) -> bool {
    at.is_first() && at.content().starts_with(b"#")
}

/// Whether blank lines stand above that would be the document's last, and without which it goes on.
pub fn is_behind_blanks(at: &At) -> bool {
    let blanks = at.above().take_while(|line| line.is_empty()).count();
    let end = at.start - blanks;
    blanks > 0 && at.is_first() && Document::read(&at.doc[..end]).is_ok() && at.helps(end..at.start, b"")
}

/// Whether the document was whole above, and no property and no item may follow it.
pub fn is_behind_root(at: &At) -> bool {
    let begins = [&b"\""[..], b"-"].iter().any(|begin| at.line_goes_on(begin));
    at.is_first() && at.place == at.start && Document::read(&at.doc[..at.start]).is_ok() && !begins
}

/// The key, with its colon, that ends the line above, and its column: on this line what belongs to it would have to
/// begin.
pub fn key_above<'d>(at: &At<'d>) -> Option<(usize, &'d [u8])> {
    let (column, key) = ending_key(at.above().next()?)?;
    wants(at, column + 2).then_some((column, key))
}

/// Whether there is such a key, and this line is not indented deeper than it, or is not there.
pub fn lacks_value(at: &At) -> bool {
    let indent = at.line().len() - at.content().len();
    at.is_first() && key_above(at).is_some_and(|(column, _)| indent <= column || at.content().is_empty())
}

pub fn is_flat_item(at: &At) -> bool {
    is_item(at.content()) && lacks_value(at)
}

/// Whether this line is one value, which could stand behind the key above.
pub fn is_value_below(at: &At) -> bool {
    let content = at.end - at.content().len();
    key_above(at).is_some() && at.place >= content && at.helps(at.start - 1..content, b" ")
}

pub fn is_item(content: &[u8]) -> bool {
    content == b"-" || content.starts_with(b"- ")
}

/// A key with its colon and its column, where a line ends in one, a line comment aside.
fn ending_key(line: &[u8]) -> Option<(usize, &[u8])> {
    let comment = scan(line).comment.unwrap_or(line.len());
    let body = trim_spaces(&line[..comment]);
    let scanned = scan(body);
    (body.ends_with(b":") && scanned.open.is_empty()).then(|| (scanned.value, &body[scanned.value..]))
}

/// Whether the line must begin at a column: a quote goes on there, another character does not, as it would in a text.
fn wants(at: &At, column: usize) -> bool {
    let whole = Document::read(&at.doc[..at.start]).is_ok();
    !whole && at.line_goes_on(&indented(column, b"\"")) && !at.line_goes_on(&indented(column, b")"))
}

fn indented(column: usize, bytes: &[u8]) -> Vec<u8> {
    [&vec![b' '; column][..], bytes].concat()
}

/// Whether the line above is one quoted string below a key, and another would have to follow.
pub fn is_lone_string(at: &At) -> bool {
    let mut above = at.above();
    let (Some(string), Some(key)) = (above.next(), above.next()) else { return false };
    let text = string.trim_ascii_start();
    let is_string = matches!(text.first(), Some(b'"' | b'\'')) && quoted_length(text, text[0]) == Some(text.len());
    is_string && ending_key(key).is_some() && at.is_first() && wants(at, string.len() - text.len())
}

/// No line begins deeper than two spaces behind the spaces and dashes of the last one above that is not blank.
fn deepest(at: &At) -> usize {
    let above = at.above().find(|line| !line.is_empty()).unwrap_or_default();
    2 + above.iter().take_while(|byte| b" -".contains(byte)).count()
}

/// The columns, in spaces, at which this line's content may begin.
pub fn columns(at: &At) -> Vec<usize> {
    let content = at.content();
    let begin = &content[..content.len().min(2)];
    let goes_on = |column: &usize, bytes: &[u8]| at.line_goes_on(&indented(*column, bytes));
    // In a text anything goes on.
    let fits = |column: &usize| goes_on(column, begin) && !goes_on(column, b")");
    (0..=deepest(at)).step_by(2).filter(fits).collect()
}

/// Whether the content could stand at another column.
pub fn is_misplaced(at: &At) -> bool {
    at.is_first() && !at.content().is_empty() && !columns(at).is_empty()
}

pub fn has_comments_only(at: &At) -> bool {
    is_above_root(at) && (at.line().is_empty() || at.line().starts_with(b"#"))
}

/// A key that a value or a line end is to follow: in a text, any character could.
pub fn ends_in_key(at: &At) -> bool {
    let goes_on = at.goes_on(b"\n") || at.goes_on(b"1");
    trim_spaces(at.before()).ends_with(b":") && goes_on && !at.goes_on(b")")
}

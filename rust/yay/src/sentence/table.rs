//! The sentences: of the rows with a refusal's number the first counts whose mistake the bytes around the place show.
//! Names behind a `$` are filled from these bytes (`filled.rs`). `tests.rs` tries every row.

use super::at::{is_whole, At};
use super::characters::*;
use super::lines::*;
use super::marks::*;
use super::plain::*;
use super::quoted::*;
use crate::place::Place;
use crate::refusal::Number;
use crate::repeat::first_key;

pub struct Row {
    pub number: Number,
    pub shows: fn(&At) -> bool,
    pub says: &'static str,
}

const fn row(number: Number, shows: fn(&At) -> bool, says: &'static str) -> Row {
    Row { number, shows, says }
}

const fn char(shows: fn(&At) -> bool, says: &'static str) -> Row {
    row(Number::Char, shows, says)
}

const fn syntax(shows: fn(&At) -> bool, says: &'static str) -> Row {
    row(Number::Syntax, shows, says)
}

const fn end(shows: fn(&At) -> bool, says: &'static str) -> Row {
    row(Number::End, shows, says)
}

pub const TABLE: &[Row] = &[
    row(Number::Long, |_| true, "there are more than $longest bytes, the most that a document has"),
    row(Number::Deep, |_| true, "here a container would stand inside $nesting others, the most there may be"),
    row(
        Number::Repeat,
        |at| first_key(at.doc, Place(at.place)).is_some(),
        "the key $key stands in its object already, at $first",
    ),
    // Characters.
    char(
        |at| forbidden(at).is_some(),
        "$code is valid UTF-8, but not allowed in a document; in double quotes write $escape",
    ),
    char(
        |at| begun(at).is_some(),
        "the character begun by the byte $begun does not go on with $found; a document is text in UTF-8",
    ),
    char(|at| at.is_byte(b'\t'), "a tab may stand nowhere in a document; write spaces, or \\t in double quotes"),
    char(|at| at.is_byte(b'\r'), "a carriage return may stand nowhere in a document; a line ends in LF alone"),
    char(is_control, "the control byte $byte may stand nowhere in a document"),
    char(|_| true, "the byte $byte begins no character; a document is text in UTF-8"),
    // The document's end.
    end(|at| at.doc.is_empty(), "the document is empty"),
    end(|at| is_whole(at.doc), "the last line does not end in a line end"),
    end(has_comments_only, "there are comments alone; a document has a value below them"),
    end(|at| begun(at).is_some(), "the document ends inside a character"),
    end(|at| opened(at).is_some(), "the document ends too early; $opened is not closed"),
    end(is_lone_string, "the document ends too early; one string alone stands behind its key, on the key's line"),
    end(lacks_value, "the document ends too early; $above has no value"),
    end(ends_in_key, "the document ends too early; the last key has no value"),
    end(|_| true, "the document ends too early"),
    // Where a document or a line begins.
    syntax(begins_with_mark, "a document may not begin with a byte order mark"),
    syntax(is_marker_line, "$here; leave out the line \"---\""),
    syntax(|at| at.line().is_empty() && is_above_root(at), "a blank line may not stand above the document"),
    syntax(|at| at.line().is_empty(), "a blank line may not stand here"),
    syntax(is_indented_comment, "$here; a comment above the document begins at column 1"),
    syntax(
        is_comment_line,
        "a comment may not have its own line here; it stands above the document, or behind a value after two spaces",
    ),
    syntax(is_behind_blanks, "$here; a blank line may not stand between properties or items"),
    syntax(is_lone_string, "$here; one string alone stands behind its key, on the key's line"),
    syntax(is_flat_item, "$here; items below a key are indented by two spaces"),
    syntax(lacks_value, "$here; $above has no value, on its line or indented by two spaces below"),
    syntax(is_value_below, "$here; one value alone stands behind its key, on the key's line"),
    // Spaces and comments.
    syntax(has_trailing_space, "a line may not end in a space"),
    syntax(is_empty_item, "a line may not end in a space; an item's value stands behind \"- \""),
    syntax(
        |at| forbidden(at).is_some(),
        "$code is valid UTF-8, but not allowed in a document; in double quotes write $escape",
    ),
    syntax(is_no_character, "$here; a document is text in UTF-8"),
    syntax(is_space_like, "$found may not stand here; it looks like a space, and is none"),
    syntax(is_near_comment, "$here; two spaces must stand before a comment"),
    syntax(is_far_comment, "$here; one space must stand before a comment behind \">\""),
    syntax(is_root_comment, "$here; no comment may stand behind a value that is the whole document"),
    syntax(is_spaced_inside, "$here; no space may stand behind an opening bracket"),
    syntax(|at| is_spaced_before(at, b"]}>"), "$here; no space may stand before a closing bracket"),
    syntax(|at| is_spaced_before(at, b","), "$here; no space may stand before \",\""),
    syntax(|at| is_spaced_before(at, b":"), "$here; no space may stand before \":\""),
    syntax(|at| is_spaced_twice(at, b':'), "$here; one space alone must follow \":\""),
    syntax(|at| is_spaced_twice(at, b'-'), "$here; one space alone must follow \"-\""),
    syntax(|at| is_spaced_twice(at, b','), "$here; one space alone must follow \",\""),
    syntax(has_comma_last, "$here; no \",\" may stand behind the last one"),
    syntax(|at| lacks_space(at, b','), "$here; one space must follow \",\""),
    syntax(|at| lacks_space(at, b':'), "$here; a space must follow \":\""),
    syntax(|at| lacks_space(at, b'-'), "$here; a space must follow \"-\""),
    syntax(is_spaced_number, "$here; in brackets a number has no spaces, and \",\" and one space stand between two"),
    syntax(lacks_comma, "$here; \",\" and one space must stand between two"),
    // What is not closed.
    syntax(
        ends_in_escaped_quote,
        "$here; $opened is not closed; \\' stands for a quote, and a backslash at a string's end is \\\\",
    ),
    syntax(leaves_quote_open, "$here; $opened is not closed"),
    syntax(leaves_bracket_open, "$here; $opened is not closed on this line"),
    // Bytes, and lines that stand at the wrong column.
    syntax(is_capital_hex, "$here; hex digits of bytes are lowercase"),
    syntax(is_half_pair, "$here; bytes are pairs of hex digits, and one is missing"),
    syntax(is_hex_below, "$here; bytes are pairs of hex digits, and a text begins with a grave (`) instead of \">\""),
    syntax(is_hex, "$here; bytes are pairs of hex digits"),
    syntax(is_behind_root, "$here; behind this value there may be blank lines alone"),
    syntax(|at| is_misplaced(at) && columns(at) == [0], "$here; the line may not be indented"),
    syntax(is_misplaced, "$here; the indentation may be $columns spaces"),
    // Quotes and escapes.
    syntax(is_unbraced, "$here; write $braced"),
    syntax(is_number_escape, "$here; \\u{…} holds 1 to 6 hex digits, up to 10FFFF and none of D800 to DFFF"),
    syntax(is_escape, "$here; behind a backslash stands one of \" \\ / b f n r t u, and a backslash itself is \\\\"),
    syntax(has_comma_at_end, "$here; no \",\" may end a property or an item"),
    syntax(is_pair_without_value, "$here; the key before it has no value"),
    syntax(is_pair_in_array, "$here; pairs stand in { and }"),
    syntax(is_wrong_closer, "$here; $open is closed by $closer"),
    syntax(is_behind_quote, "$here; the string that begins at column $ended ended before it"),
    syntax(is_curly_quote, "$here; strings stand in \" or '"),
    // Keys and values.
    syntax(is_keyword, "$here; the keyword is written $keyword"),
    syntax(is_text_bar, "$here; a text of several lines begins with a grave (`)"),
    syntax(|at| is_behind_mark(at, b": `"), "$here; a property's text begins on the line below the grave (`)"),
    syntax(|at| is_behind_mark(at, b": >"), "$here; a property's bytes begin on the line below \">\""),
    syntax(is_item_among_keys, "$here; no item may stand among properties"),
    syntax(is_item_behind_key, "$here; items stand below their key, indented by two spaces"),
    syntax(is_key_to_quote, "$here; a key of more than letters, digits, \"_\" and \"-\" stands in quotes"),
    syntax(is_no_number, "$here; this is no number, and text stands in quotes"),
    syntax(|at| is_unquoted(at) && lacks_colon(at), "$here; text stands in quotes, and \":\" follows a key"),
    syntax(is_unquoted, "$here; text stands in quotes"),
    syntax(lacks_colon, "$here; \":\" must follow a key"),
    syntax(|_| true, "$here"),
];

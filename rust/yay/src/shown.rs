//! Bytes of a document or a name as they may be shown: nothing that moves a cursor, hides or reorders text.

/// A character as shown, and the byte after those it stands for.
pub struct Piece {
    pub to: usize,
    pub text: String,
    /// Columns on a terminal.
    pub width: usize,
}

/// A line's characters; a byte that belongs to none is a piece of its own.
pub fn pieces(bytes: &[u8]) -> Vec<Piece> {
    let mut pieces = Vec::new();
    let mut to = 0;
    for chunk in bytes.utf8_chunks() {
        for character in chunk.valid().chars() {
            let text = visible(character);
            let width = if text.len() == character.len_utf8() { columns(character) } else { text.len() };
            to += character.len_utf8();
            pieces.push(Piece { to, text, width });
        }
        for byte in chunk.invalid() {
            to += 1;
            pieces.push(Piece { to, text: format!("\\x{byte:02x}"), width: 4 });
        }
    }
    pieces
}

/// As in one line of plain text.
pub fn plain(bytes: &[u8]) -> String {
    pieces(bytes).into_iter().map(|piece| piece.text).collect()
}

/// In double quotes, cut if long.
pub fn quoted(bytes: &[u8]) -> String {
    const MOST: usize = 60;
    let pieces = pieces(bytes);
    let text: String = pieces.iter().take(MOST).map(|piece| quote_safe(&piece.text)).collect();
    let more = if pieces.len() > MOST { "…" } else { "" };
    format!("\"{text}{more}\"")
}

fn quote_safe(text: &str) -> &str {
    match text {
        "\"" => "\\\"",
        "\\" => "\\\\",
        text => text,
    }
}

fn visible(character: char) -> String {
    match character {
        '\n' => "\\n".into(),
        '\t' => "\\t".into(),
        '\r' => "\\r".into(),
        hidden if is_hidden(hidden) => format!("\\u{{{:x}}}", hidden as u32),
        shown => shown.to_string(),
    }
}

/// Controls, characters that reorder, hide or separate lines of text, and spaces but the plain one.
pub fn is_hidden(character: char) -> bool {
    character.is_control()
        || (character.is_whitespace() && character != ' ')
        || matches!(character as u32, 0xad | 0x61c | 0x200b..=0x200f | 0x2028..=0x202e | 0x2060..=0x206f | 0xfeff)
        || matches!(character as u32, 0xe0000..=0xe007f)
        || (character as u32) & 0xfffe == 0xfffe
}

/// Columns that a character takes on most terminals.
fn columns(character: char) -> usize {
    match character as u32 {
        0x300..=0x36f | 0xfe00..=0xfe0f => 0,
        0x1100..=0x115f | 0x2e80..=0xa4cf | 0xac00..=0xd7a3 | 0xf900..=0xfaff | 0xfe30..=0xfe6f => 2,
        0xff00..=0xff60 | 0xffe0..=0xffe6 | 0x1f300..=0x1f64f | 0x1f680..=0x1f6ff | 0x1f900..=0x1f9ff => 2,
        0x20000..=0x3fffd => 2,
        _ => 1,
    }
}

#[cfg(test)]
mod tests {
    use super::*;

    #[test]
    fn nothing_reaches_the_terminal_as_a_control() {
        assert_eq!(plain(b"a\x1b[31m\xff\x7f"), "a\\u{1b}[31m\\xff\\u{7f}");
        assert_eq!(plain("\u{202e}\u{85}\u{a0}".as_bytes()), "\\u{202e}\\u{85}\\u{a0}");
        assert_eq!(quoted("a\"\n日".as_bytes()), "\"a\\\"\\n日\"");
    }

    #[test]
    fn pieces_know_their_bytes_and_columns() {
        let pieces = pieces("é日\tx".as_bytes());
        let facts: Vec<_> = pieces.iter().map(|piece| (piece.to, piece.width)).collect();
        assert_eq!(facts, [(2, 1), (5, 2), (6, 2), (7, 1)]);
    }

    #[test]
    fn long_texts_are_cut() {
        assert_eq!(quoted(&[b'a'; 61]).chars().count(), 63);
        assert_eq!(quoted(&[b'a'; 60]).chars().count(), 62);
    }
}

//! All documents over small alphabets: an alphabet's letters are short strings.

/// An alphabet, and up to how many letters a walk goes.
pub struct Alphabet {
    pub name: &'static str,
    pub letters: &'static [&'static [u8]],
    pub most: usize,
}

macro_rules! alphabet {
    ($name:literal, $most:literal, $($letter:literal)*) => {
        Alphabet { name: $name, most: $most, letters: &[$($letter),*] }
    };
}

/// `most` is set so that each walk has some hundred thousand documents.
pub const ALPHABETS: [Alphabet; 19] = [
    alphabet!("lines", 10, b"a" b":" b"-" b" " b"\n"),
    alphabet!("values", 7, b"1" b"-" b"." b"e" b" " b"\n" b":"),
    alphabet!("single quotes", 7, b"'" b"\\" b"k" b": " b"\xC3" b"\xA9" b"\xE2\x82" b"\xF0\x9F\x98" b"\xFF" b"\x7F" b"\x09" b"\n"),
    alphabet!("places", 9, b"\"\xC3\xA9\"" b": " b":\n" b"  " b"- " b"#\xF0\x9F\x98\x80\n" b"[" b", " b"]" b"\n"),
    alphabet!("property numbers", 7, b"k: " b"1" b"-" b"." b"e+" b" " b"\n" b"#"),
    alphabet!("inline", 8, b"[" b"]" b"{" b"}" b"," b" " b"a" b":" b"1"),
    alphabet!("inline words", 7, b"[" b"]" b"{" b"}" b", " b"a: " b"1" b"-" b"\n"),
    alphabet!("strings", 6, b"\"" b"'" b"\\" b"u{" b"}" b"D800" b"0" b"n" b"\n"),
    alphabet!("bytes", 7, b"<" b">" b"a" b"1" b" " b"\n" b"#" b"k: "),
    alphabet!("block strings", 8, b"`" b"x" b" " b"\n" b"- " b"k: "),
    alphabet!("open bytes", 7, b"> " b"ab" b" " b"\n" b"# c" b"- " b"k: "),
    alphabet!("nested", 8, b"k:" b"j: 1" b"  " b"\n" b"- " b"\"s\"" b"`"),
    alphabet!("escapes", 9, b"k:\n" b"  " b"\"\\n\"\n" b"'\\'\\\\'\n" b"'\\k'\n" b"\"\\t\": " b"- "),
    alphabet!("joined", 9, b"k:\n" b"  " b" " b"\"s\"" b"\n" b":" b"j: 1\n"),
    alphabet!("bullets", 8, b"- " b"-" b"5" b":" b" " b"\n" b"  "),
    alphabet!("words", 5, b"nul" b"l" b"true" b"fals" b"e" b"nan" b"-" b"infinity" b":" b" " b"\n"),
    alphabet!("characters", 6, b"\"" b"# " b"\xC2" b"\xA0" b"\x80" b"\xEF" b"\xB7" b"\xBF" b"\x90" b"\xBE" b"\xF0" b"\x9F" b"\n"),
    alphabet!("more characters", 7, b"` " b"\xE0" b"\xED" b"\xA0" b"\x9F" b"\xF4" b"\x8F" b"\xBF" b"\xBD" b"\x7F" b"\x09" b"\n"),
    alphabet!("comments", 7, b"#" b" " b"\n" b"1" b"- " b"k:" b"c"),
];

/// The `index`th document of an alphabet in an order of growing length.
pub fn document(alphabet: &Alphabet, mut index: usize) -> Vec<u8> {
    let base = alphabet.letters.len();
    let mut size = 0;
    let mut count = 1;
    while index >= count {
        index -= count;
        count *= base;
        size += 1;
    }
    let mut doc = Vec::new();
    for _ in 0..size {
        doc.extend_from_slice(alphabet.letters[index % base]);
        index /= base;
    }
    doc
}

/// A walk over the documents of an alphabet that lets out what begins with a refused one.
#[derive(Default)]
pub struct Walk {
    /// The letters of the last document, by number.
    letters: Vec<usize>,
}

impl Walk {
    /// The document after the last one, of which it is told whether it begins a document.
    pub fn next(&mut self, alphabet: &Alphabet, begins: bool) -> Option<Vec<u8>> {
        if begins && self.letters.len() < alphabet.most {
            self.letters.push(0);
        } else {
            while self.letters.last().is_some_and(|&letter| letter + 1 == alphabet.letters.len()) {
                self.letters.pop();
            }
            *self.letters.last_mut()? += 1;
        }
        Some(self.letters.iter().flat_map(|&letter| alphabet.letters[letter]).copied().collect())
    }
}

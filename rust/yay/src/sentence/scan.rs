//! What is open where a line's beginning ends. The reader has let these bytes through, so quotes and brackets are
//! what they look like, unless the line is a text's or a comment's: whoever asks makes sure of that.

pub struct Scan {
    /// The quotes and brackets that are not closed, each with its offset in the line.
    pub open: Vec<(usize, u8)>,
    /// Where the last key, value or element begins.
    pub value: usize,
    /// Where a quoted string begins that ends with these bytes.
    pub ended: Option<usize>,
    /// Where a comment begins.
    pub comment: Option<usize>,
}

pub fn scan(line: &[u8]) -> Scan {
    let indent = line.iter().take_while(|byte| **byte == b' ').count();
    let mut scan = Scan { open: Vec::new(), value: indent, ended: None, comment: None };
    let mut at = indent;
    while at < line.len() && scan.comment.is_none() {
        let quote = scan.quote();
        scan.ended = None;
        at += match quote {
            Some(_) if line[at] == b'\\' => 2,
            Some(quote) => scan.inside(line[at], at, quote),
            None => scan.outside(line, at),
        };
    }
    scan
}

impl Scan {
    /// The quote that is open.
    pub fn quote(&self) -> Option<u8> {
        self.open.last().map(|(_, byte)| *byte).filter(|byte| matches!(byte, b'"' | b'\''))
    }

    fn inside(&mut self, byte: u8, at: usize, quote: u8) -> usize {
        if byte == quote {
            self.ended = self.open.pop().map(|(from, _)| from).filter(|from| *from < at);
        }
        1
    }

    fn outside(&mut self, line: &[u8], at: usize) -> usize {
        let last = at.checked_sub(1).map(|last| line[last]);
        match line[at] {
            b'"' | b'\'' => self.open.push((at, line[at])),
            b'[' | b'{' | b'<' => {
                self.open.push((at, line[at]));
                self.value = at + 1;
            }
            b']' | b'}' | b'>' => drop(self.open.pop()),
            b'#' | b'`' if self.open.is_empty() => self.comment = Some(at),
            b' ' if matches!(last, Some(b':' | b'-' | b',')) => self.value = at + 1,
            _ => {}
        }
        1
    }
}

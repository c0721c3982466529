//! `yay batch`: documents one after another on standard input, each as 4 bytes of length, least first, and its
//! bytes; a line for each on standard output.

use crate::outline::hex;
use crate::stop::{Done, Stop};
use std::fmt::Write as _;
use std::io::{self, BufRead, ErrorKind, Read, Write};
use yay::{read, Accepted, Refusal, LONGEST, WORDS};

pub fn run(input: &mut dyn Read, out: &mut dyn Write) -> Done {
    let mut input = io::BufReader::with_capacity(1 << 16, input);
    let (mut doc, mut table, mut text) = (Vec::new(), vec![0; LONGEST * WORDS], vec![0; LONGEST]);
    loop {
        if input.buffer().len() < 4 {
            // Whoever waits for an answer before the next document gets it.
            out.flush()?;
        }
        if !next(&mut input, &mut doc).map_err(|error| Stop::File(said(&error)))? {
            return Ok(());
        }
        writeln!(out, "{}", line(read(&doc, &mut table, &mut text)))?;
    }
}

fn said(error: &io::Error) -> String {
    match error.kind() {
        ErrorKind::UnexpectedEof => "standard input ends inside a document or its length".into(),
        _ => format!("standard input: {error}"),
    }
}

/// The next document, of one that is too long its first bytes; false at the input's end.
fn next(input: &mut impl BufRead, doc: &mut Vec<u8>) -> io::Result<bool> {
    if input.fill_buf()?.is_empty() {
        return Ok(false);
    }
    let mut length = [0; 4];
    input.read_exact(&mut length)?;
    let length = u64::from(u32::from_le_bytes(length));
    let kept = length.min(LONGEST as u64 + 1);
    doc.clear();
    let taken = input.take(kept).read_to_end(doc)? as u64;
    let left = io::copy(&mut input.take(length - kept), &mut io::sink())?;
    if taken + left < length {
        return Err(ErrorKind::UnexpectedEof.into());
    }
    Ok(true)
}

fn line(answer: Result<Accepted, Refusal>) -> String {
    let Accepted { tree, escapes } = match answer {
        Ok(accepted) => accepted,
        Err(refusal) => return format!("no {} {}", refusal.number.code(), refusal.place.0),
    };
    let text = tree.text_room();
    let mut line = format!("ok {} {} {escapes} ", tree.rows(), text.len());
    for word in (0..tree.rows()).filter_map(|row| tree.words(yay::Row(row)).ok()).flatten() {
        let _ = write!(line, "{word},");
    }
    line.pop();
    line + " " + if text.is_empty() { "-".into() } else { hex(text) }.as_str()
}

#[cfg(test)]
mod tests {
    use super::*;

    fn answered(input: &[u8]) -> (String, bool) {
        let mut out = Vec::new();
        let done = run(&mut &input[..], &mut out);
        (String::from_utf8(out).unwrap(), done.is_ok())
    }

    fn framed(doc: &[u8]) -> Vec<u8> {
        [&(doc.len() as u32).to_le_bytes()[..], doc].concat()
    }

    #[test]
    fn a_line_for_each_document() {
        let input = [framed(b""), framed(b"null\n"), framed(b"[1, 22]\n"), framed(&vec![b'a'; 1_070_000])].concat();
        let rows = ["8,0,7,0,2,0,3,1,1", "4,1,2,0,1,0,2,1,2", "4,4,6,1,3,0,3,1,5"].join(",");
        let lines = format!("no 5 0\nok 1 0 0 1,0,4,0,0,0,1,1,1 -\nok 3 3 0 {rows} 313232\nno 1 0\n");
        assert_eq!(answered(&input), (lines, true));
        assert_eq!(answered(&framed(b"\"a\\n\\u{41}\"\n")), ("ok 1 3 2 6,0,11,0,3,0,1,1,1 610a41\n".into(), true));
        assert_eq!(answered(b""), ("".into(), true));
    }

    #[test]
    fn input_cut_short_is_an_error() {
        assert_eq!(answered(&framed(b"1\n")[..3]), ("".into(), false));
        assert_eq!(answered(&framed(b"1\n")[..5]), ("".into(), false));
        assert_eq!(answered(&framed(&vec![b'a'; 1_070_000])[..1_060_000]), ("".into(), false));
    }
}

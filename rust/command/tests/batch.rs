//! `yay batch` on all vectors, where YAY_VECTORS names their file: hex of a document, a tab, and its answer.

mod common;
use common::yay;

fn bytes(hex: &str) -> Vec<u8> {
    let hex = if hex == "-" { "" } else { hex };
    (0..hex.len()).step_by(2).map(|at| u8::from_str_radix(&hex[at..at + 2], 16).expect("hex")).collect()
}

fn framed(doc: &[u8]) -> Vec<u8> {
    [&(doc.len() as u32).to_le_bytes()[..], doc].concat()
}

#[test]
fn a_few_documents() {
    let escaped = framed(b"'\\'\\\\'\n");
    let input =
        [framed(b""), framed(b"\"\"\n"), framed(b"a: 1\na: 2\n"), escaped, framed(&vec![b'x'; 1_048_577])].concat();
    let run = yay(&["batch"], &input);
    assert_eq!((run.status, run.err.as_str()), (0, ""));
    assert_eq!(run.out, "no 5 0\nok 1 0 0 6,0,2,0,0,0,1,1,1 -\nno 6 5\nok 1 2 2 6,0,6,0,2,0,1,1,1 275c\nno 1 0\n");
}

#[test]
fn input_cut_short() {
    let run = yay(&["batch"], &framed(b"1\n")[..5]);
    assert_eq!((run.status, run.err.as_str()), (2, "yay: standard input ends inside a document or its length\n"));
}

#[test]
fn all_vectors() {
    let Ok(path) = std::env::var("YAY_VECTORS") else { return };
    let file = std::fs::read_to_string(path).expect("the vectors");
    let vectors: Vec<_> = file.lines().filter_map(|line| line.split_once('\t')).collect();
    let input: Vec<u8> = vectors.iter().flat_map(|(doc, _)| framed(&bytes(doc))).collect();
    let run = yay(&["batch"], &input);
    assert_eq!(run.out.lines().count(), vectors.len());
    for ((doc, answer), line) in vectors.iter().zip(run.out.lines()) {
        assert_eq!(*answer, line, "document {doc}");
    }
}

//! The second writer and the second test of soundness: the vectors, borders, round trips, and deliberate faults in both.

use evidence::compare::faults::writing::{faults, passed_over};
use evidence::compare::writing::run::run;
use evidence::compare::writing::{same_but_spans, Comparer};
use evidence::documents::{grow, grow_wide, Rng};
use evidence::hex;
use evidence::second::questions::{Lent, BADROW};
use evidence::second::sound::{sound, used, Test};
use evidence::second::write::{write, written};
use evidence::second::{Given, Refusal, Second, LONG, LONGEST, TEXT, WORDS};
use evidence::tables::borders::{borders, large};

/// What a document is written back as, if it is accepted; writing that again changes nothing.
fn written_back(doc: &[u8]) -> Option<Vec<u8>> {
    let given = Second::new().given(doc).ok()?;
    let Given { words, text, .. } = &given;
    let lent = Lent { table: words, rows: words.len() / WORDS, text };
    assert_eq!(used(&lent, None), Some(text.len()), "{}", hex::show(doc));
    let bytes = match written(&lent) {
        Ok(bytes) => bytes,
        Err(no) => {
            assert_eq!((no.number, no.place), (LONG, 0));
            return None;
        }
    };
    let again = Second::new().given(&bytes).unwrap_or_else(|no| panic!("{no:?}: {}", hex::show(&bytes)));
    assert!(same_but_spans(&lent, text.len(), &again), "{}", hex::show(doc));
    let lent = Lent { table: &again.words, rows: again.words.len() / WORDS, text: &again.text };
    assert_eq!(written(&lent).as_ref(), Ok(&bytes), "{}", hex::show(doc));
    Some(bytes)
}

#[test]
fn vectors() {
    let file = include_str!("../vectors/written.tsv");
    assert_eq!(file.lines().count(), 303);
    for line in file.lines() {
        let columns: Vec<_> = line.split('\t').map(|column| hex::parse(column).expect("hex")).collect();
        let [doc, wanted, _] = &columns[..] else { panic!("{line}") };
        let bytes = written_back(doc).expect("written");
        assert_eq!(String::from_utf8_lossy(&bytes), String::from_utf8_lossy(wanted));
    }
}

#[test]
fn the_readings_examples() {
    for (doc, wanted) in [
        ("- - 5\n", "- [5]\n"),
        ("[[], {}]\n", "- []\n- {}\n"),
        ("- {b: [1]}\n", "- b:\n    - 1\n"),
        ("- a: 1\n  b: 2\n", "- a: 1\n  b: 2\n"),
        ("- [1, {a: [2], 'b c': {}}]\n", "- [1, {a: [2], \"b c\": {}}]\n"),
        ("{'-': 1, \"null\": 1, '10': 1, '': 1}\n", "-: 1\nnull: 1\n10: 1\n\"\": 1\n"),
        ("- '-': 1\n", "- -: 1\n"),
        (
            "\"/'\\u{feff}\\u{7F}\\u{00}\\u{FDD0}\\u{1FFFF}\\u{85}\"\n",
            "\"/'\u{feff}\\u{7f}\\u{0}\\u{fdd0}\\u{1ffff}\\u{85}\"\n",
        ),
        ("# c\na: >\n  00 ff\nb: 1 0\n\n", "a: <00ff>\nb: 10\n"),
    ] {
        let bytes = written_back(doc.as_bytes()).expect("written");
        assert_eq!(String::from_utf8_lossy(&bytes), wanted);
    }
}

#[test]
fn grown_documents_come_back() {
    let mut rng = Rng::new(5);
    for i in 0..4000 {
        let doc = if i % 100 == 0 { grow_wide(&mut rng, 9000, 5).doc } else { grow(&mut rng, 150, 32).doc };
        written_back(&doc);
    }
}

#[test]
fn borders_are_known() {
    for table in borders().into_iter().chain(large()) {
        assert_eq!(Some(sound(&table.lent())), table.sound, "{} rows, {} bytes", table.rows, table.text.len());
    }
}

/// A string of so many bytes.
fn string(bytes: usize) -> [u32; WORDS] {
    [6, 0, 0, 0, bytes as u32, 0, 1, 0, 0]
}

#[test]
fn refusals_in_their_order() {
    let (text, mut out) = (vec![b'a'; LONGEST], vec![7; LONGEST]);
    let no = |number, place| Err(Refusal { number, place });
    let longest = string(LONGEST - 3);
    let lent = Lent { table: &longest, rows: 1, text: &text };
    assert_eq!(write(&Lent { text: &text[..9], ..lent }, &mut []), no(BADROW, 0));
    assert_eq!(write(&Lent { rows: 0, ..lent }, &mut out), no(BADROW, 0));
    assert_eq!(write(&lent, &mut out[..5]), no(TEXT, LONGEST));
    assert!(out.iter().all(|byte| *byte == 7));
    assert_eq!(write(&lent, &mut out), Ok(LONGEST));
    assert_eq!(write(&Lent { table: &string(LONGEST - 2), ..lent }, &mut []), no(LONG, 0));
}

#[test]
fn the_second_writer_differs_nowhere_from_itself() {
    let tally = run(Second::new, 3, 60_000).unwrap_or_else(|no| panic!("{}: {:?}", no.what, no.table));
    assert!(tally.met.iter().all(|count| *count > 100), "{:?}", tally.met);
}

#[test]
fn every_fault_is_found() {
    for (i, (name, _)) in faults().into_iter().enumerate() {
        assert!(run(|| faults().swap_remove(i).1, 1, 60_000).is_err(), "not found: {name}");
    }
    let mut found = 0;
    for table in large() {
        let (mut comparer, mut rng) = (Comparer::default(), Rng::new(1));
        let fault = &mut passed_over(Test::Most);
        found += usize::from(comparer.difference(fault, &table, &mut rng).is_some());
    }
    assert_eq!(found, 2, "one byte of text, and one row, more than there may be");
}

//! The second storing and loading: the vectors, borders, what trees made beside their form give, and deliberate faults.

use evidence::compare::faults::storing::faults;
use evidence::compare::storing::run::run;
use evidence::compare::storing::{Comparer, SecondStores};
use evidence::documents::Rng;
use evidence::hex;
use evidence::second::questions::{Lent, BADROW};
use evidence::second::stored::{lent, load, loaded, store, stored, Loaded, BADFORM, WIDEST};
use evidence::second::write::written;
use evidence::second::{Second, ROWS, TEXT, WORDS};
use evidence::stored::borders::{borders, VECTORS};
use evidence::stored::made::made;
use evidence::stored::stream::Stream;
use evidence::stored::Item;
use evidence::tables::trees::{plain, Node};
use evidence::tables::Table;

fn table(doc: &[u8]) -> Table {
    Second::new().given(doc).unwrap_or_else(|no| panic!("{no:?}: {}", hex::show(doc))).into()
}

#[test]
fn vectors() {
    assert_eq!(VECTORS.lines().count(), 303);
    for line in VECTORS.lines() {
        let columns: Vec<_> = line.split('\t').map(|column| hex::parse(column).expect("hex")).collect();
        let [doc, house, form] = &columns[..] else { panic!("{line}") };
        assert_eq!(stored(&table(doc).lent()).as_ref(), Ok(form), "{line}");
        // Both the document and the house style have it, and what is loaded is written as that.
        assert_eq!(stored(&table(house).lent()).as_ref(), Ok(form), "{line}");
        let back = loaded(form).unwrap_or_else(|no| panic!("{no}: {line}"));
        assert_eq!(written(&lent(&back)).as_ref(), Ok(house), "{line}");
    }
}

#[test]
fn what_the_request_says() {
    let form = stored(&table(b"[1, 22]\n").lent()).expect("a form");
    assert_eq!(form, [8, 0, 9, 4, 0, 1, b'1', 4, 0, 2, b'2', b'2']);
    let rows = [[8, 0, 12, 0, 2, 0, 3, 0, 0], [4, 3, 7, 0, 1, 0, 2, 0, 0], [4, 7, 12, 1, 3, 0, 3, 0, 0]];
    assert_eq!(loaded(&form), Ok(Loaded { words: rows.concat(), text: b"122".to_vec() }));
}

#[test]
fn refusals_in_their_order() {
    let text = vec![b'a'; WIDEST + 1];
    let string = |bytes: usize| [6, 0, 0, 0, bytes as u32, 0, 1, 0, 0];
    let (widest, wider) = (string(WIDEST), string(WIDEST + 1));
    let mut out = vec![7; WIDEST + 9];
    assert_eq!(store(&Lent { table: &wider, rows: 1, text: &text[..9] }, &mut []), (BADROW, 0));
    assert_eq!(store(&Lent { table: &wider, rows: 1, text: &text }, &mut out[..WIDEST + 6]), (TEXT, WIDEST + 7));
    assert_eq!(store(&Lent { table: &widest, rows: 1, text: &text }, &mut []), (TEXT, WIDEST + 3));
    assert!(out.iter().all(|byte| *byte == 7));
    assert_eq!(store(&Lent { table: &widest, rows: 1, text: &text }, &mut out), (0, WIDEST + 3));
    let (form, behind) = out.split_at(WIDEST + 3);
    assert_eq!((&form[..4], behind), (&[6, 255, 255, b'a'][..], &[7; 6][..]));
    let mut room = vec![7; WIDEST];
    assert_eq!(load(&form[1..], &mut [], &mut []), (BADFORM, 0, 0));
    assert_eq!(load(form, &mut [7; WORDS - 1], &mut []), (ROWS, 1, 0));
    assert_eq!(load(form, &mut [7; WORDS], &mut room[1..]), (TEXT, WIDEST, 0));
    assert_eq!(load(form, &mut [7; WORDS], &mut room), (0, 1, WIDEST));
}

#[test]
fn what_parts_look_like() {
    let text = |bytes: usize| vec![b'a'; bytes];
    let string = |bytes: usize| stored(&plain(&Node::Leaf(6, text(bytes)), true).lent()).expect("a form");
    assert_eq!(string(65_535)[..4], [6, 255, 255, b'a']);
    assert_eq!(string(65_536)[..4], [11, 255, 255, b'a']);
    assert_eq!(string(65_536)[65_537..], [b'a', 6, 0, 1, b'a']);
    assert_eq!(string(131_070)[65_538..65_542], [6, 255, 255, b'a']);
    assert_eq!(string(131_071)[131_075..], [b'a', 6, 0, 1, b'a']);
    // A cut inside the head of the second element counts in its span; one just behind the first counts in neither.
    let spans = |first: usize, second: Node| {
        let form = made(&Node::Array(vec![Node::Leaf(6, text(first)), second])).bytes;
        let rows = loaded(&form).expect("a form").words;
        rows.chunks(WORDS).map(|row| (row[1], row[2])).collect::<Vec<_>>()
    };
    assert_eq!(spans(65_530, Node::Leaf(4, b"7".to_vec())), [(0, 65_543), (3, 65_536), (65_536, 65_543)]);
    assert_eq!(spans(65_532, Node::Leaf(1, Vec::new())), [(0, 65_544), (3, 65_538), (65_541, 65_544)]);
}

/// A stored form of 16,777,216 bytes is loaded, one of a byte more is not, and is needed to store it.
#[test]
fn the_longest_stored_form() {
    let (heads, room) = (256 * 3, 1 << 24);
    let table = |bytes: usize| plain(&Node::Leaf(7, vec![9; bytes]), true);
    let mut out = vec![0; room + 9];
    let longest = table(room - heads);
    assert_eq!(store(&longest.lent(), &mut out), (0, room));
    assert_eq!(loaded(&out[..room]).map(|loaded| loaded.text.len()), Ok(room - heads));
    let longer = table(room - heads + 1);
    assert_eq!(store(&longer.lent(), &mut out), (TEXT, room + 1));
    let form = stored(&longer.lent()).expect("a form");
    assert_eq!((form.len(), loaded(&form)), (room + 1, Err(BADFORM)));
}

#[test]
fn borders_are_known() {
    for item in borders() {
        match &item {
            Item::Table { table, known: Some(known), .. } => assert_eq!(&stored(&table.lent()), known),
            Item::Bytes { bytes, known: Some(known), .. } => {
                assert_eq!(&loaded(bytes), known, "{}", hex::show(&bytes[..bytes.len().min(40)]))
            }
            item => panic!("not known: {item:?}"),
        }
    }
}

#[test]
fn every_source_gives_what_it_says() {
    let (mut stream, mut comparer, mut rng) = (Stream::new(9), Comparer::default(), Rng::new(9));
    for _ in 0..40_000 {
        let item = stream.item();
        assert_eq!(comparer.difference(&SecondStores, &item, &mut rng), None, "{item:?}");
    }
    let tally = comparer.tally;
    assert!(
        tally.sources[1..].iter().chain(&tally.met).all(|count| *count > 20),
        "{:?} {:?}",
        tally.sources,
        tally.met
    );
}

#[test]
fn the_second_functions_differ_nowhere_from_themselves() {
    let tally = run(|| SecondStores, 5, 30_000).unwrap_or_else(|no| panic!("{}: {:?}", no.what, no.item));
    assert_eq!(tally.items, 30_000);
}

#[test]
fn every_fault_is_found() {
    for (i, (name, _)) in faults().into_iter().enumerate() {
        assert!(run(|| faults().swap_remove(i).1, 1, 30_000).is_err(), "not found: {name}");
    }
}

/// Also where no border helps.
#[test]
fn every_fault_is_found_by_chance() {
    for (name, fault) in faults() {
        let (mut stream, mut comparer, mut rng) = (Stream::new(2), Comparer::default(), Rng::new(2));
        let found = (0..60_000).any(|_| comparer.difference(&fault, &stream.item(), &mut rng).is_some());
        assert!(found, "not found: {name}");
    }
}

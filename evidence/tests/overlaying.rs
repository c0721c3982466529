//! The second overlay: borders, what trees made beside each other give, grouping, and deliberate faults.

use evidence::compare::faults::overlaying::faults;
use evidence::compare::overlaying::run::run;
use evidence::compare::overlaying::{Comparer, SecondLays};
use evidence::documents::Rng;
use evidence::overlays::borders::{borders, many, texts};
use evidence::overlays::stream::Stream;
use evidence::overlays::{Pair, Source};
use evidence::second::overlay::{laid, overlay, Laid, CLASH, RULES};
use evidence::second::questions::{Lent, BADROW};
use evidence::second::sound::{sound, used};
use evidence::second::write::written;
use evidence::second::{Second, MOST, ROWS, TEXT, WORDS};
use evidence::tables::Table;

fn table(doc: &str) -> Table {
    Second::new().given(doc.as_bytes()).unwrap_or_else(|no| panic!("{no:?}: {doc}")).into()
}

fn lent(laid: &Laid) -> Lent<'_> {
    Lent { table: &laid.words, rows: laid.words.len() / WORDS, text: &laid.text }
}

/// The result in the house style.
fn over(lower: &str, upper: &str) -> Result<String, u32> {
    let laid = laid(&RULES, &table(lower).lent(), &table(upper).lent())?;
    Ok(String::from_utf8(written(&lent(&laid)).expect("a document")).expect("text"))
}

#[test]
fn what_the_request_says() {
    let fleet = "channel: 'stable'\nbattery:\n  low-at: 0.15\n  cells: [1, 2]\nlamp: 'on'\n";
    let site = "battery: {cells: [3], spare: true}\nname: 'Cold store'\nchannel: 'beta'\n";
    let result = "channel: \"beta\"\nbattery:\n  low-at: 0.15\n  cells:\n    - 3\n  spare: true\nlamp: \"on\"\nname: \"Cold store\"\n";
    assert_eq!(over(fleet, site).as_deref(), Ok(result));
    assert_eq!(over(fleet, "battery: null\n"), Err(CLASH));
    assert_eq!(over("lamp: {}\n", fleet), Err(CLASH));
    assert_eq!(over(fleet, "[]\n"), Err(BADROW));
    assert_eq!(over("1\n", "battery: null\n"), Err(BADROW));
}

#[test]
fn borders_are_known() {
    for pair in borders().into_iter().chain([15, 16, 17, 300].into_iter().flat_map(many)) {
        let [lower, upper] = pair.lent();
        assert_eq!(Some(laid(&RULES, &lower, &upper)), pair.known, "{pair:?}");
    }
}

#[test]
fn rooms_count_for_no_more_than_the_most() {
    for (bytes, told) in [(MOST, (0, 5, MOST)), (MOST + 1, (TEXT, MOST + 1, 0))] {
        let pair = texts(bytes);
        let [lower, upper] = pair.lent();
        let mut room = vec![0; bytes + 9];
        assert_eq!(overlay(&lower, &upper, &mut [0; 5 * WORDS], &mut room), told);
        assert_eq!(overlay(&lower, &upper, &mut [0; 5 * WORDS - 1], &mut room), (ROWS, 5, 0));
    }
}

/// A result is a sound table without gaps, spans, lines and columns.
fn is_plain(laid: &Laid) -> bool {
    let spanless = |row: &[u32]| [1, 2, 7, 8].iter().all(|word| row[*word] == 0);
    used(&lent(laid), None) == Some(laid.text.len()) && laid.words.chunks(WORDS).all(spanless)
}

#[test]
fn every_source_gives_what_it_says() {
    let (mut stream, mut comparer, mut rng) = (Stream::new(9), Comparer::default(), Rng::new(9));
    for _ in 0..20_000 {
        let pair = stream.pair();
        assert_eq!(comparer.difference(&SecondLays, &pair, &mut rng), None, "{pair:?}");
        let [lower, upper] = pair.lent();
        let damaged = matches!(pair.source, Source::DamagedLower | Source::DamagedUpper | Source::BothDamaged);
        assert!(damaged || (sound(&lower) && sound(&upper)), "{pair:?}");
        assert!(
            laid(&RULES, &lower, &upper).is_ok_and(|laid| is_plain(&laid)) || pair.known.is_none_or(|no| no.is_err())
        );
    }
    let tally = comparer.tally;
    assert!(tally.sources[1..].iter().chain(&tally.met).all(|count| *count > 50), "{:?}", tally.sources);
}

/// Both groupings clash, or both give one table; a tree over itself, and the empty one on either side, is itself.
#[test]
fn any_grouping() {
    let mut stream = Stream::new(4);
    let empty = table("{}\n");
    let (mut same, mut clashed) = (0, 0);
    for _ in 0..3_000 {
        let Pair { lower, upper: Some(upper), known: Some(Ok(_) | Err(CLASH)), .. } = stream.pair() else { continue };
        let Pair { upper: Some(third), source: Source::Made | Source::Clashing | Source::Deep, .. } = stream.pair()
        else {
            continue;
        };
        let lay = |one: &Lent, other: &Lent| laid(&RULES, one, other);
        let left = lay(&lower.lent(), &upper.lent()).and_then(|both| lay(&lent(&both), &third.lent()));
        let right = lay(&upper.lent(), &third.lent()).and_then(|both| lay(&lower.lent(), &lent(&both)));
        assert_eq!(left, right);
        if let Ok(laid) = &left {
            for (one, other) in [(lent(laid), lent(laid)), (lent(laid), empty.lent()), (empty.lent(), lent(laid))] {
                assert_eq!(lay(&one, &other).as_ref(), Ok(laid));
            }
        }
        same += usize::from(left.is_ok());
        clashed += usize::from(left == Err(CLASH));
    }
    assert!(same > 300 && clashed > 100, "{same} {clashed}");
}

#[test]
fn the_second_overlay_differs_nowhere_from_itself() {
    let tally = run(|| SecondLays, 5, 10_000).unwrap_or_else(|no| panic!("{}: {:?}", no.what, no.pair));
    assert_eq!(tally.pairs, 10_000);
}

#[test]
fn every_fault_is_found() {
    for (i, (name, _)) in faults().into_iter().enumerate() {
        assert!(run(|| faults().swap_remove(i).1, 1, 20_000).is_err(), "not found: {name}");
    }
}

/// Also where no border helps.
#[test]
fn every_fault_is_found_by_chance() {
    for (name, fault) in faults() {
        let (mut stream, mut comparer, mut rng) = (Stream::new(2), Comparer::default(), Rng::new(2));
        let found = (0..20_000).any(|_| comparer.difference(&fault, &stream.pair(), &mut rng).is_some());
        assert!(found, "not found: {name}");
    }
}

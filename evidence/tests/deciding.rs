//! The second decision: borders, both orders of a pair, versions in any form, and deliberate faults.

use evidence::compare::deciding::run::run;
use evidence::compare::deciding::{difference, SecondDecider, Tally};
use evidence::compare::faults::deciding::faults;
use evidence::documents::Rng;
use evidence::second::decide::{decide, Decided, Decision, BADINST, BADSHEET, RULES};
use evidence::second::Second;
use evidence::sheets::borders::{borders, large, IMAGE};
use evidence::sheets::stream::Stream;
use evidence::sheets::versions::{near, random, Version};
use evidence::sheets::Source;
use evidence::tables::Table;

fn table(doc: &str) -> Table {
    Second::new().given(doc.as_bytes()).unwrap_or_else(|no| panic!("{no:?}: {doc}")).into()
}

fn decided(version: &str, floor: &str, installed: &str) -> Decided {
    let sheet = table(&format!("version: {version}\nfloor: {floor}\nimage: {IMAGE}\n"));
    decide(&sheet.lent(), &table(&format!("{installed}\n")).lent())
}

#[test]
fn what_the_request_says() {
    assert_eq!(decided("[10]", "[0]", "[9]"), Ok(Decision::Install));
    assert_eq!(decided("[9]", "[0]", "[10]"), Ok(Decision::Keep));
    assert_eq!(decided("[10]", "[0]", "[10, 0]"), Ok(Decision::Keep));
    assert_eq!(decided("[10]", "[9, 5]", "[9, 4]"), Ok(Decision::Blocked));
    assert_eq!(decided("[10]", "[11]", "[10]"), Ok(Decision::Keep));
    assert_eq!(decided("[10]", "[]", "[9]"), Err(BADSHEET));
    assert_eq!(decided("[10]", "[]", "[-9]"), Err(BADINST));
}

#[test]
fn borders_are_known() {
    for pair in borders().into_iter().chain(large()) {
        let decided = decide(&pair.sheet.lent(), &pair.installed.lent());
        assert_eq!(Some(decided), pair.known, "{} rows, {} rows", pair.sheet.rows, pair.installed.rows);
    }
}

fn texts(version: &Version) -> Vec<&[u8]> {
    version.iter().map(|number| number.as_bytes()).collect()
}

#[test]
fn the_order_is_total_up_to_trailing_zeros() {
    let mut rng = Rng::new(3);
    for _ in 0..20_000 {
        let one = random(&mut rng);
        let other = near(&mut rng, &one);
        let third = near(&mut rng, &other);
        let above = |one: &Version, other: &Version| (RULES.above)(&texts(one), &texts(other));
        assert!(!(above(&one, &other) && above(&other, &one)), "{one:?} {other:?}");
        assert!(!above(&one, &other) || !above(&other, &third) || above(&one, &third), "{one:?} {other:?} {third:?}");
        let bare = |version: &Version| {
            let some = version.iter().rposition(|number| number != "0").map_or(0, |last| last + 1);
            version[..some].to_vec()
        };
        let equal = !above(&one, &other) && !above(&other, &one);
        assert_eq!(equal, bare(&one) == bare(&other), "{one:?} {other:?}");
    }
}

#[test]
fn every_source_gives_what_it_says() {
    let (mut stream, mut tally) = (Stream::new(9), Tally::default());
    for _ in 0..20_000 {
        let pair = stream.pair();
        assert_eq!(difference(&SecondDecider, &pair, &mut tally), None, "{pair:?}");
        let wrong = matches!(pair.source, Source::WrongSheet | Source::WrongInstalled | Source::BothWrong);
        assert_eq!(wrong, matches!(pair.known, Some(Err(_))), "{pair:?}");
    }
    assert!(tally.sources[1..].iter().chain(&tally.met).all(|count| *count > 50), "{:?}", tally.sources);
}

#[test]
fn the_second_decision_differs_nowhere_from_itself() {
    let tally = run(|| SecondDecider, 5, 60_000).unwrap_or_else(|no| panic!("{}: {:?}", no.what, no.pair));
    assert_eq!(tally.pairs, 60_000);
}

#[test]
fn every_fault_is_found() {
    for (i, (name, _)) in faults().into_iter().enumerate() {
        assert!(run(|| faults().swap_remove(i).1, 1, 60_000).is_err(), "not found: {name}");
    }
}

/// Also where no border helps.
#[test]
fn every_fault_is_found_by_chance() {
    for (name, fault) in faults() {
        let (mut stream, mut tally) = (Stream::new(2), Tally::default());
        let found = (0..60_000).any(|_| difference(&fault, &stream.pair(), &mut tally).is_some());
        assert!(found, "not found: {name}");
    }
}

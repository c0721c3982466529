//! Large documents: the second reader answers those whose meaning is known, lengths are what they say, and faults that only
//! large documents show are found.

use evidence::compare::faults::large::faults;
use evidence::compare::large::run;
use evidence::documents::large::large;
use evidence::second::{Second, LONG, LONGEST, REPEAT};
use std::collections::HashSet;

#[test]
fn what_is_known_of_them() {
    let (mut names, mut counts) = (HashSet::new(), [0; 4]);
    for (name, make) in large() {
        let made = make();
        let given = Second::new().given(&made.doc);
        assert!(made.doc.len() >= 90_000 && made.doc.len() <= LONGEST + 1, "{name}: {} bytes", made.doc.len());
        assert!(made.meant.is_none_or(|meant| meant == given), "{name}");
        counts[0] += usize::from(given.is_ok());
        counts[1] += usize::from(given.as_ref().is_err_and(|no| no.number == REPEAT));
        counts[2] += usize::from(given.as_ref().is_err_and(|no| no.number == LONG));
        counts[3] += usize::from(made.doc.len() == LONGEST && given.is_ok());
        assert!(names.insert(name.clone()), "{name} twice");
    }
    assert!(counts[0] > 80 && counts[1] > 30 && counts[2] >= 12 && counts[3] >= 12, "{counts:?}");
}

#[test]
fn every_fault_is_found() {
    for (i, (name, _)) in faults().into_iter().enumerate() {
        assert!(run(|| faults().swap_remove(i).1, &|_, _| None).is_err(), "not found: {name}");
    }
}

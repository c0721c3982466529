//! A run over streams of documents, each in a thread of its own, until one differs or the limits are reached.

use super::stream::{Document, Stream};
use super::streams::{each_stream, PARTS};
use super::{forms, places, Comparer, Reader, Tally};
use crate::vectors::Vector;
use std::sync::atomic::{AtomicBool, AtomicUsize, Ordering::Relaxed};
use std::time::{Duration, Instant};

/// After so many documents a thread looks at the clock and at the other threads.
const TURN: usize = 1024;

/// The documents of a run, and where it ends.
pub struct Limits {
    pub seed: u64,
    pub vectors: Vec<Vector>,
    pub documents: usize,
    pub seconds: Option<u64>,
}

/// A document that differs.
pub struct Difference {
    pub doc: Vec<u8>,
    pub what: String,
    /// How many documents its stream had, with this one.
    pub documents: usize,
}

/// What the threads of a run know of each other.
struct Shared<'a> {
    limits: &'a Limits,
    until: Option<Instant>,
    documents: AtomicUsize,
    stop: AtomicBool,
}

/// The tally of all documents, or one that differs. `watch` is told every ten seconds how many there were.
pub fn run<R: Reader>(
    make: impl Fn() -> R + Sync,
    limits: &Limits,
    watch: impl Fn(usize) + Sync,
) -> Result<Tally, Difference> {
    let until = limits.seconds.map(|seconds| Instant::now() + Duration::from_secs(seconds));
    let shared = Shared { limits, until, documents: AtomicUsize::new(0), stop: AtomicBool::new(false) };
    let tallies = each_stream(|part| {
        one_stream(&mut make(), part, &shared, |count| {
            if part == 0 {
                watch(count)
            }
        })
    })?;
    let mut all = Tally::default();
    tallies.iter().for_each(|tally| all.add(tally));
    Ok(all)
}

fn one_stream(
    reader: &mut dyn Reader,
    part: usize,
    shared: &Shared,
    watch: impl Fn(usize),
) -> Result<Tally, Difference> {
    let mut stream = Stream::new(shared.limits.seed, part, PARTS, &shared.limits.vectors);
    let mut comparer = Comparer::default();
    let mut told = Instant::now();
    for i in 0..shared.limits.documents.div_ceil(PARTS) {
        let document = stream.document();
        if let Some(what) = differs(reader, &document, &mut comparer, i as u64) {
            shared.stop.store(true, Relaxed);
            return Err(Difference { doc: document.doc, what, documents: i + 1 });
        }
        if i % TURN != TURN - 1 {
            continue;
        }
        let count = shared.documents.fetch_add(TURN, Relaxed) + TURN;
        if told.elapsed() >= Duration::from_secs(10) {
            told = Instant::now();
            watch(count);
        }
        if shared.stop.load(Relaxed) || shared.until.is_some_and(|until| Instant::now() > until) {
            break;
        }
    }
    Ok(comparer.tally)
}

/// How the reader, or the second reader itself, differs on a document.
pub(super) fn differs(
    reader: &mut dyn Reader,
    document: &Document,
    comparer: &mut Comparer,
    seed: u64,
) -> Option<String> {
    let Document { doc, meant, every_room } = document;
    let second = comparer.expected(doc);
    if meant.as_ref().is_some_and(|meant| *meant != second) {
        return Some("the second reader differs from what the document is known to mean".into());
    }
    if second.as_ref().is_ok_and(|given| given.escapes != forms::total(doc, &given.words)) {
        return Some("the second reader counts other escapes than stand in the spans of its rows".into());
    }
    if second.as_ref().is_ok_and(|given| !places::agree(doc, &given.words)) {
        return Some("the second reader counts another line or column than stands before a row".into());
    }
    comparer.difference(reader, doc, &second, *every_room, seed)
}

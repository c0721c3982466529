//! Compares the second reader with the slow checker of places, and with what
//! grown documents mean: `places [DOCUMENTS [SEED]]`.

use evidence::documents::{deep::deep, grow, mutate::mutate, shrink::shrink, small, Rng};
use evidence::hex;
use evidence::second::{Refusal, Second};
use evidence::slow::{self, Alive, UNLIMITED};
use std::process::ExitCode;

/// Limits of nesting the small documents are tried with.
const LIMITS: [usize; 4] = [1, 2, 3, 32];

struct Checker {
    seconds: Vec<Second>,
    rng: Rng,
    documents: usize,
    /// By answer number, 0 for acceptance.
    counts: [usize; 9],
    /// Accepted ones with escapes.
    escaped: usize,
    wrong: usize,
}

impl Checker {
    /// Compares one answer; `limit` is an index into LIMITS.
    fn check(&mut self, doc: &[u8], limit: usize, expected: Result<usize, Refusal>) {
        let answer = verdict(&mut self.seconds[limit], doc);
        self.documents += 1;
        self.counts[expected.map_or_else(|refusal| refusal.number as usize, |_| 0)] += 1;
        self.escaped += usize::from(expected.is_ok_and(|escapes| escapes > 0));
        if slow::agrees(expected, answer) {
            return;
        }
        self.wrong += 1;
        let second = &mut self.seconds[limit];
        let small = shrink(doc, |doc| !slow::agrees(slow::answer(doc, LIMITS[limit] as u32), verdict(second, doc)));
        println!("nesting {}: {} {:?}", LIMITS[limit], hex::show(&small), String::from_utf8_lossy(&small));
        println!("  slow {:?}, second {:?}", slow::answer(&small, LIMITS[limit] as u32), verdict(second, &small));
    }

    /// All documents of an alphabet that begin with `doc`, which is alive, up to `left` more letters.
    fn walk(
        &mut self,
        doc: &mut Vec<u8>,
        limit: usize,
        alive: &(Alive, Alive),
        alphabet: &small::Alphabet,
        left: usize,
    ) {
        for letter in alphabet.letters {
            let size = doc.len();
            match take(doc, letter, alive) {
                Ok(next) => {
                    let end = Refusal { number: 5, place: doc.len() };
                    self.check(doc, limit, next.0.document().ok_or(end));
                    if left > 1 {
                        self.walk(doc, limit, &next, alphabet, left - 1);
                    }
                }
                Err(refusal) => {
                    doc.truncate(size);
                    doc.extend_from_slice(letter);
                    self.check(doc, limit, Err(refusal));
                    doc.extend_from_slice(alphabet.letters[self.rng.below(alphabet.letters.len())]);
                    self.check(doc, limit, Err(refusal));
                }
            }
            doc.truncate(size);
        }
    }

    /// All bytes behind `doc`, whose last character has `part` bytes so far, in a string.
    fn characters(&mut self, doc: &mut Vec<u8>, part: usize) {
        for byte in 0x80..=0xFF {
            doc.push(byte);
            let begins = slow::begin_characters(doc);
            let (number, place) = if begins { (5, doc.len()) } else { (2, doc.len() - 1) };
            let refused = Err(Refusal { number, place });
            self.check(doc, 3, refused);
            let cut = begins && !slow::begin_characters(&[&doc[..], b"x"].concat());
            if cut && part < 3 {
                doc.push(b'x');
                self.check(doc, 3, Err(Refusal { number: 2, place: doc.len() - 1 }));
                doc.pop();
                self.characters(doc, part + 1);
            }
            doc.pop();
        }
    }

    fn random(&mut self) {
        let limit = self.rng.below(LIMITS.len());
        let mut doc = if self.rng.once_in(6) {
            let limit = LIMITS[limit];
            let depth = (limit + self.rng.below(3)).saturating_sub(1);
            deep(&mut self.rng, depth)
        } else {
            let size = self.rng.below(60);
            grow(&mut self.rng, size, 4).doc
        };
        doc.truncate(240);
        if !self.rng.once_in(4) {
            mutate(&mut self.rng, &mut doc);
        }
        let expected = slow::answer(&doc, LIMITS[limit] as u32);
        self.check(&doc, limit, expected);
    }

    /// A grown document has the rows, text and escapes it was grown to mean.
    fn grown(&mut self) {
        let size = self.rng.below(400);
        let grown = grow(&mut self.rng, size, 32);
        let answer = self.seconds[3].given(&grown.doc);
        self.documents += 1;
        if answer != grown.meant {
            self.wrong += 1;
            println!("grown {} {:?}", hex::show(&grown.doc), String::from_utf8_lossy(&grown.doc));
            println!("  meant {:?}\n  second {answer:?}", grown.meant);
        }
    }
}

/// The second reader's answer as far as the slow checker goes.
fn verdict(second: &mut Second, doc: &[u8]) -> Result<usize, Refusal> {
    second.tree(doc).map(|(_, _, escapes)| escapes)
}

/// Appends a letter, or stops at the byte that no document has there.
fn take(doc: &mut Vec<u8>, letter: &[u8], alive: &(Alive, Alive)) -> Result<(Alive, Alive), Refusal> {
    let mut alive = alive.clone();
    for &byte in letter {
        let within = alive.0.after(byte);
        if !within.begins() {
            return Err(slow::refused_at(doc, byte, &alive.1));
        }
        alive = (within, alive.1.after(byte));
        doc.push(byte);
    }
    Ok(alive)
}

fn main() -> ExitCode {
    let mut numbers = std::env::args().skip(1).map(|number| number.parse().expect("a number"));
    let documents = numbers.next().unwrap_or(200_000);
    let seed = numbers.next().unwrap_or(1);
    println!("seed {seed}");
    let seconds = LIMITS.iter().map(|&limit| Second::with_nesting(limit)).collect();
    let rng = Rng::new(seed as u64);
    let mut checker = Checker { seconds, rng, documents: 0, counts: [0; 9], escaped: 0, wrong: 0 };
    for alphabet in &small::ALPHABETS {
        let before = checker.documents;
        for (limit, &nesting) in LIMITS.iter().enumerate() {
            let alive = (Alive::new(nesting as u32), Alive::new(UNLIMITED));
            let most = if nesting == 32 { alphabet.most } else { alphabet.most.min(5) };
            checker.walk(&mut Vec::new(), limit, &alive, alphabet, most);
        }
        println!(
            "{:<18} {:>9} documents, {} differences so far",
            alphabet.name,
            checker.documents - before,
            checker.wrong
        );
    }
    // Also behind a backslash that stays, where any character may stand as well.
    for string in [&b"\""[..], b"'\\"] {
        checker.characters(&mut string.to_vec(), 0);
    }
    println!("{} documents with all characters, {} differences so far", checker.documents, checker.wrong);
    for _ in 0..documents {
        checker.random();
    }
    for _ in 0..documents {
        checker.grown();
    }
    println!("documents by answer number, 0 for accepted: {:?}; {} have escapes", checker.counts, checker.escaped);
    println!("{} documents, {} differences", checker.documents, checker.wrong);
    ExitCode::from(u8::from(checker.wrong > 0))
}

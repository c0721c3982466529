//! Figures for docs/BENCHMARKS.md: `bench`, or `bench large` for those of large documents alone. To see where time goes, a
//! shape read by the proved reader alone, again and again: `perf record -g bench SHAPE [SECONDS]`.

use evidence::documents::hostile::HOSTILE;
use evidence::documents::shapes::SHAPES;
use evidence::documents::{keys, Rng};
use evidence::figures::{Bench, Best};
use evidence::second::Answer;
use std::process::ExitCode;
use std::time::{Duration, Instant};

const SIZES: [usize; 4] = [1_000, 2_000, 8_000, 32_000];
const HOSTILE_SIZES: [usize; 4] = [4_096, 8_192, 20_480, 32_768];
/// How much more a byte may cost at 32 KB than at 4 KB, and than at 20 KB, where it would be eight times and 1.6 times
/// as much if the cost were quadratic. Documents over 16 KB are passed over twice, smaller ones with few rows once.
const GROWTH: (f64, f64) = (4.0, 1.5);
/// A shape that seems to cost more than its length is measured so many times: a machine that others use too makes a
/// time longer, never shorter.
const TIMES: usize = 3;
/// How much more keys may cost than as many bytes of strings: short ones, and those chosen to cost the most.
const KEYS: f64 = 1.5;
const CHOSEN: f64 = 8.0;
/// A key of a larger object may cost so many times as much in an overlay: one of 8,000 keys stands in three windows, each of
/// which is passed by all keys of the other; the product of the counts would be four times.
#[cfg(feature = "overlaid")]
const WINDOWS: f64 = 2.0;

fn megabytes(bytes: usize, seconds: f64) -> f64 {
    bytes as f64 / seconds / 1e6
}

/// Speeds on the shapes of documents people write; how many shapes the readers differ on.
fn shapes(bench: &mut Bench) -> usize {
    println!(
        "| Shape | Rows | Text bytes | Proved MB/s | Second MB/s | Ratio | ns a byte at 1 KB | 2 KB | 8 KB | 32 KB |"
    );
    println!("|---|---:|---:|---:|---:|---:|---:|---:|---:|---:|");
    let mut differ = 0;
    for (name, shape) in SHAPES {
        let docs = SIZES.map(|size| shape(&mut Rng::new(1), size));
        let Some(Ok(counts)) = bench.both(docs[3].as_bytes()) else {
            differ += 1;
            println!("| {name} | THE READERS DIFFER |");
            continue;
        };
        let timed = docs.map(|doc| bench.best(doc.as_bytes()));
        let Best { bytes, proved, second } = timed[3];
        print!("| {name} | {} | {} ", counts.rows, counts.text);
        print!("| {:.0} | {:.0} | {:.2} ", megabytes(bytes, proved), megabytes(bytes, second), second / proved);
        println!("| {} |", timed.map(|best| format!("{:.2}", best.a_byte())).join(" | "));
    }
    differ
}

/// Whether a byte costs about as much at every size.
fn linear(timed: [Best; 4]) -> bool {
    let costs = timed.map(|best| best.a_byte());
    costs[3] <= GROWTH.0 * costs[0] && costs[3] <= GROWTH.1 * costs[2]
}

/// The cost of a byte on hostile shapes; how many of them cost more than their length, or are answered differently.
fn hostile(bench: &mut Bench) -> usize {
    println!("| Hostile shape | Answer | ns a byte at 4 KB | 8 KB | 20 KB | 32 KB | 32 KB to 4 KB | Ratio |");
    println!("|---|---|---:|---:|---:|---:|---:|---:|");
    let mut bad = 0;
    for (name, shape) in HOSTILE {
        let docs = HOSTILE_SIZES.map(shape);
        let Some(answer) = bench.both(&docs[3]) else {
            bad += 1;
            println!("| {name} | THE READERS DIFFER |");
            continue;
        };
        let mut timed = docs.each_ref().map(|doc| bench.best(doc));
        for _ in 1..TIMES {
            if linear(timed) {
                break;
            }
            timed = docs.each_ref().map(|doc| bench.best(doc));
        }
        let costs = timed.map(|best| best.a_byte());
        let linear = linear(timed);
        bad += usize::from(!linear);
        print!("| {name} | {} | {} ", said(answer), costs.map(|cost| format!("{cost:.2}")).join(" | "));
        println!("| {:.2}{} | {:.2} |", costs[3] / costs[0], mark(linear), timed[3].second / timed[3].proved);
    }
    bad
}

fn said(answer: Answer) -> String {
    answer.map_or_else(|no| format!("{} at {}", no.number, no.place), |counts| format!("{} rows", counts.rows))
}

fn mark(good: bool) -> &'static str {
    if good {
        ""
    } else {
        " TOO MUCH"
    }
}

/// Flat objects of keys, as many as 32 KB hold, beside arrays of as many bytes; how many lists of keys cost more than they may.
fn repeats(bench: &mut Bench) -> usize {
    println!("| Keys | How many | µs | As strings of an array, µs | Times | Second reader, µs |");
    println!("|---|---:|---:|---:|---:|---:|");
    let mut bad = 0;
    let lists = [
        ("short ones", KEYS, keys::short()),
        ("of one chain", CHOSEN, keys::of_one_chain(keys::SOME)),
        ("of one mark", CHOSEN, keys::of_one_mark(keys::SOME)),
        ("of one mark and one chain", CHOSEN, keys::of_one_mark_and_chain(keys::SOME)),
        ("of 200 bytes that share their last 32", CHOSEN, keys::of_one_end(keys::SOME)),
    ];
    for (name, most, doc) in lists.iter() {
        let mut keyed = bench.best(doc.as_bytes());
        let mut array = bench.best(keys::as_array(doc).as_bytes());
        for _ in 1..TIMES {
            if keyed.proved <= most * array.proved {
                break;
            }
            keyed = bench.best(doc.as_bytes());
            array = bench.best(keys::as_array(doc).as_bytes());
        }
        let times = keyed.proved / array.proved;
        let good = bench.both(doc.as_bytes()).is_some_and(|answer| answer.is_ok()) && times <= *most;
        bad += usize::from(!good);
        print!("| {name} | {} | {:.0} | {:.0} ", doc.lines().count(), keyed.proved * 1e6, array.proved * 1e6);
        println!("| {times:.2}{} | {:.0} |", mark(good), keyed.second * 1e6);
    }
    bad
}

/// How much more such tables may cost than reading what was written; tables as people have them may cost no more.
#[cfg(feature = "written")]
const LABORIOUS: f64 = 2.0;

/// Tables that cost a writer more than they look: nothing but keys, empty arrays, escapes or indentation.
#[cfg(feature = "written")]
fn laborious() -> Vec<(&'static str, String)> {
    let deep = |keys: usize| -> String {
        let line = |depth: usize, i: usize| format!("{}k{i}: 1\n", "  ".repeat(depth));
        let open: String = (0..31).map(|depth| format!("{}d:\n", "  ".repeat(depth))).collect();
        open + &(0..keys).map(|i| line(31, i)).collect::<String>()
    };
    vec![
        ("short keys", keys::short()),
        ("keys of one chain", keys::of_one_chain(keys::SOME)),
        ("keys of one mark", keys::of_one_mark(keys::SOME)),
        ("empty arrays", format!("[{}[]]\n", "[], ".repeat(5_000))),
        ("an array of arrays of arrays", format!("[{}[[[1]]]]\n", "[[[1]]], ".repeat(2_500))),
        ("a string of U+0000", format!("\"{}\"\n", "\\u{0}".repeat(6_000))),
        ("a string of quotes", format!("'{}'\n", "\"".repeat(16_000))),
        ("31 levels of indentation", deep(400)),
    ]
}

/// What writing costs beside reading what was written; how many documents cost more than they may, or are written
/// otherwise by the second writer.
#[cfg(feature = "written")]
fn written(bench: &mut Bench) -> usize {
    println!("| Written | Bytes | Reading, µs | Writing, µs | Times | Test of soundness alone, µs |");
    println!("|---|---:|---:|---:|---:|---:|");
    let mut bad = 0;
    // What is written may be longer than what was read, so the documents are of half the length.
    let shapes = SHAPES.iter().map(|(name, shape)| (*name, shape(&mut Rng::new(1), SIZES[3] / 2), 1.0));
    let laborious = laborious().into_iter().map(|(name, doc)| (name, doc, LABORIOUS));
    for (name, doc, most) in shapes.chain(laborious) {
        let Some(mut best) = bench.written(doc.as_bytes()) else {
            bad += 1;
            println!("| {name} | THE WRITERS DIFFER |");
            continue;
        };
        for _ in 1..TIMES {
            if best.writing <= most * best.reading {
                break;
            }
            best = bench.written(doc.as_bytes()).unwrap_or(best);
        }
        let good = best.writing <= most * best.reading;
        bad += usize::from(!good);
        print!("| {name} | {} | {:.1} | {:.1} ", best.bytes, best.reading * 1e6, best.writing * 1e6);
        println!("| {:.2}{} | {:.1} |", best.writing / best.reading, mark(good), best.testing * 1e6);
    }
    println!();
    bad
}

#[cfg(not(feature = "written"))]
fn written(_: &mut Bench) -> usize {
    0
}

/// What the upgrade decision costs; how many cases the two decisions differ on, or a byte of which costs more than one
/// of a smaller case.
#[cfg(feature = "decided")]
fn decided(bench: &mut Bench) -> usize {
    println!("| Decided | Bytes of text | ns | ns a byte | Second, ns |");
    println!("|---|---:|---:|---:|---:|");
    let mut bad = 0;
    let mut costs = Vec::new();
    for case in evidence::figures::deciding::cases() {
        let most = case.smaller.map_or(f64::MAX, |smaller: usize| GROWTH.1 * costs[smaller]);
        let tries: Vec<_> = (0..TIMES).map_while(|_| bench.decided(&case)).collect();
        let Some(best) = tries.into_iter().min_by(|one, other| one.proved.total_cmp(&other.proved)) else {
            println!("| {} | THE DECISIONS DIFFER |", case.name);
            return bad + 1;
        };
        let good = best.a_byte() <= most;
        bad += usize::from(!good);
        costs.push(best.a_byte());
        print!("| {} | {} | {:.0} | {:.2}", case.name, best.bytes, best.proved * 1e9, best.a_byte());
        println!("{} | {:.0} |", mark(good), best.second * 1e9);
    }
    println!();
    bad
}

#[cfg(not(feature = "decided"))]
fn decided(_: &mut Bench) -> usize {
    0
}

/// What laying one table over another costs beside reading both documents, or beside a key of a smaller case; how many
/// cases cost more than they may, or are laid otherwise by the second overlay.
#[cfg(feature = "overlaid")]
fn overlaid(bench: &mut Bench) -> usize {
    println!("| Laid over | Keys of both | µs | ns a key | Reading both, µs | Times | Second, µs |");
    println!("|---|---:|---:|---:|---:|---:|---:|");
    let mut bad = 0;
    let mut costs = Vec::new();
    for case in evidence::figures::overlaying::cases() {
        let most = case.smaller.map_or(f64::MAX, |smaller: usize| WINDOWS * costs[smaller]);
        let mut best = None;
        for _ in 0..TIMES {
            let Some(tried) = bench.overlaid(&case) else {
                println!("| {} | THE OVERLAYS DIFFER |", case.name);
                return bad + 1;
            };
            best = Some(tried);
            if tried.times() <= case.most && tried.a_key() <= most {
                break;
            }
        }
        let best = best.expect("a try");
        let (many, long) = (best.times() <= case.most, best.a_key() <= most);
        bad += usize::from(!many || !long);
        costs.push(best.a_key());
        print!("| {} | {} | {:.0} | {:.0}{} ", case.name, best.keys, best.laying * 1e6, best.a_key(), mark(long));
        match best.reading {
            Some(reading) => print!("| {:.0} | {:.2}{} ", reading * 1e6, best.times(), mark(many)),
            None => print!("| | "),
        }
        println!("| {:.0} |", best.second * 1e6);
    }
    println!();
    bad
}

#[cfg(not(feature = "overlaid"))]
fn overlaid(_: &mut Bench) -> usize {
    0
}

/// What loading a stored form costs beside reading the document, and what storing costs; how many cases are loaded too
/// slowly, or are stored or loaded otherwise by the second functions.
#[cfg(feature = "stored")]
fn stored(bench: &mut Bench) -> usize {
    print!("| Stored | Bytes | Stored bytes | Reading, µs | Loading, µs | Storing, µs | Second loading, µs ");
    println!("| Loading is so many times as fast | At about 1, 2, 8 and 32 KB |");
    println!("|---|---:|---:|---:|---:|---:|---:|---:|---|");
    let mut bad = 0;
    for case in evidence::figures::storing::cases() {
        let times: Option<Vec<_>> = case.docs.iter().map(|(doc, least)| bench.stored_fast(doc, *least)).collect();
        let Some(times) = times else {
            bad += 1;
            println!("| {} | STORED OR LOADED OTHERWISE |", case.name);
            continue;
        };
        let slow = times.iter().zip(&case.docs).filter(|(best, (_, least))| best.times() < *least).count();
        bad += slow;
        let best = times[times.len() - 1];
        print!("| {} | {} | {} | {:.1} ", case.name, best.bytes[0], best.bytes[1], best.reading * 1e6);
        print!("| {:.1} | {:.1} | {:.1} ", best.loading * 1e6, best.storing * 1e6, best.second * 1e6);
        let all: Vec<_> = times.iter().map(|best| format!("{:.2}", best.times())).collect();
        println!("| {:.2} | {}{} |", best.times(), all.join(", "), if slow > 0 { " TOO SLOW" } else { "" });
    }
    println!();
    bad
}

#[cfg(not(feature = "stored"))]
fn stored(_: &mut Bench) -> usize {
    0
}

/// What a byte costs at 32 KB and at 1 MB, and in large objects beside arrays; how many cases cost more than they may, or are
/// read, stored or loaded otherwise by the second functions.
#[cfg(feature = "stored")]
fn large(bench: &mut Bench) -> usize {
    use evidence::figures::large;
    let columns = |first: &str, [small, large]: [&str; 2]| {
        let three = |what| format!("{what}, {small} | {large} | Times");
        println!("| {first} | {} | {} | {} |", three("Reading"), three("Storing"), three("Loading"));
        println!("|---|{}", "---:|".repeat(9 + usize::from(first.contains('|')) * 3));
    };
    let mut bad = 0;
    columns("ns a byte", ["32 KB", "1 MB"]);
    for case in large::shapes() {
        let costs = bench.costs(&case);
        bad += usize::from(!costs.as_ref().is_some_and(large::Costs::good));
        println!("| {} | {} |", case.name, costs.map_or("SOMETHING DIFFERS".into(), |costs| costs.told()));
    }
    println!();
    columns("Keys of an object | How many | Reading, ms | Second reader, ms", ["array, ns a byte", "object"]);
    for case in large::objects() {
        let costs = bench.costs(&case);
        bad += usize::from(!costs.as_ref().is_some_and(large::Costs::good));
        let told = costs.map_or("SOMETHING DIFFERS".into(), |costs| {
            let (keys, proved, second) = costs.read();
            format!("{keys} | {proved:.1} | {second:.1} | {}", costs.told())
        });
        println!("| {} | {told} |", case.name);
    }
    println!();
    bad
}

#[cfg(not(feature = "stored"))]
fn large(_: &mut Bench) -> usize {
    0
}

/// The document of a shape by its name.
fn named(name: &str) -> Option<Vec<u8>> {
    let shape =
        SHAPES.iter().find(|shape| shape.0 == name).map(|shape| shape.1(&mut Rng::new(1), SIZES[3]).into_bytes());
    shape.or_else(|| HOSTILE.iter().find(|shape| shape.0 == name).map(|shape| shape.1(HOSTILE_SIZES[3])))
}

fn read_for(doc: &[u8], seconds: u64) {
    let mut bench = Bench::default();
    let until = Instant::now() + Duration::from_secs(seconds);
    while Instant::now() < until {
        let _ = bench.proved(std::hint::black_box(doc));
    }
}

fn main() -> ExitCode {
    let mut words = std::env::args().skip(1);
    let first = words.next();
    if first.as_deref() == Some("large") {
        return ExitCode::from(u8::from(large(&mut Bench::default()) > 0));
    }
    if let Some(name) = first {
        let seconds = words.next().and_then(|seconds| seconds.parse().ok()).unwrap_or(5);
        let Some(doc) = named(&name) else {
            eprintln!("bench: {name} is no shape");
            return ExitCode::from(2);
        };
        read_for(&doc, seconds);
        return ExitCode::SUCCESS;
    }
    let mut bench = Bench::default();
    println!("Measured by {}.", bench.clock.name());
    println!();
    let mut bad = shapes(&mut bench);
    println!();
    bad += written(&mut bench);
    bad += decided(&mut bench);
    bad += overlaid(&mut bench);
    bad += stored(&mut bench);
    bad += hostile(&mut bench);
    println!();
    bad += repeats(&mut bench);
    println!();
    bad += large(&mut bench);
    ExitCode::from(u8::from(bad > 0))
}

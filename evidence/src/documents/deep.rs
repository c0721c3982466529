//! Documents about as deep as the limit of nesting, with every way to open a container.

use super::Rng;

const TAILS: [&str; 26] = [
    "1\n",
    "- 5\n",
    "-5: 1\n",
    "-5\n",
    "nul: 1\n",
    "null\n",
    "null 1\n",
    "nulls\n",
    "\"a\": 1\n",
    "\"a\"\n",
    "'b': 2\n",
    "a 1\n",
    "a: 1\n",
    "a:\n",
    ")\n",
    "[\n",
    "[]\n",
    "{}\n",
    "{a: 1}\n",
    "[1, [2]]\n",
    "`\n",
    "` x\n",
    "> ab\n",
    "<ab>\n",
    "-infinit: 1\n",
    ".5\n",
];
const NESTED: [&str; 12] =
    ["- 1\n", "-\n", "a: 1\n", "\"a\": 1\n", "\"a\"\n", "`\n", "` x\n", "-5: 1\n", "[", "1\n", "> ab\n", "\"a\" "];

/// A document with `depth` containers opened one inside another, then a tail.
pub fn deep(rng: &mut Rng, depth: usize) -> Vec<u8> {
    let mut doc = String::new();
    let mut column = 0;
    let blocks = if rng.once_in(2) { depth } else { rng.below(depth + 1) };
    let mut nested = false;
    for _ in 0..blocks {
        if rng.once_in(2) {
            doc.push_str("- ");
            column += 2;
            nested = false;
        } else {
            doc.push_str("k:\n");
            column += 2;
            doc.push_str(&" ".repeat(column));
            nested = true;
        }
    }
    if blocks < depth && nested {
        doc.truncate(doc.trim_end().len());
        doc.push(' ');
    }
    let closing = inline(rng, depth - blocks, &mut doc);
    doc.push_str(rng.pick(if nested && blocks == depth { &NESTED[..] } else { &TAILS[..] }));
    if rng.once_in(2) && !closing.is_empty() {
        doc.truncate(doc.trim_end().len());
        doc.push_str(&closing);
        doc.push('\n');
    }
    for _ in 0..rng.below(3) {
        doc.push_str(&" ".repeat(2 * rng.below(depth + 2)));
        doc.push_str(rng.pick(&TAILS[..]));
    }
    doc.into_bytes()
}

/// Opens inline containers; gives what closes them.
fn inline(rng: &mut Rng, count: usize, doc: &mut String) -> String {
    let mut closing = String::new();
    for _ in 0..count {
        let array = rng.once_in(2);
        doc.push_str(if array { "[" } else { "{k: " });
        closing.insert(0, if array { ']' } else { '}' });
    }
    closing
}

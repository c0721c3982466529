//! Flat objects of many keys, for the cost of finding a repeated one.

const LETTERS: &[u8; 64] = b"abcdefghijklmnopqrstuvwxyzABCDEFGHIJKLMNOPQRSTUVWXYZ0123456789_-";
/// As many bytes as one of them has, unless more are asked for.
pub const SOME: usize = 32_768;

/// An object with these keys, as many as so many bytes hold.
pub fn object(keys: impl Iterator<Item = Vec<u8>>, most: usize) -> String {
    let mut doc = String::new();
    for key in keys {
        let line = format!("{}: 1\n", String::from_utf8_lossy(&key));
        if doc.len() + line.len() > most {
            break;
        }
        doc.push_str(&line);
    }
    doc
}

/// Short keys, as one would write them.
pub fn short() -> String {
    numbered(2_900)
}

/// So many of them.
pub fn numbered(count: usize) -> String {
    object((0..count).map(|i| format!("key{i}").into_bytes()), usize::MAX)
}

/// The i-th key of so many letters.
pub fn lettered(i: usize, letters: usize) -> Vec<u8> {
    (0..letters).rev().map(|place| LETTERS[i >> (6 * place) & 63]).collect()
}

/// So many keys of three letters.
pub fn shortest(count: usize) -> String {
    object((0..count).map(|i| lettered(i, 3)), usize::MAX)
}

/// A number of keys of the first row's object, by which the library tells keys apart.
struct Number {
    factor: u32,
    /// How often the upper half of the sum so far is added to it.
    halves: u32,
    shift: u32,
    many: u32,
}

/// The chain, as crates/places picks chains.
const CHAIN: Number = Number { factor: 31, halves: 0, shift: 20, many: 1 << 12 };
/// The class in the first round, as crates/spelt, crates/notes and crates/sieve have it.
const CLASS: Number = Number { factor: 2_834_435_763, halves: 1, shift: 15, many: 1 << 17 };
/// So many bytes of a text are in a hash.
const HASHED: usize = 4_096;

impl Number {
    fn fold(&self, start: u32, key: &[u8]) -> u32 {
        key.iter().fold(start, |sum, &byte| {
            let half = self.halves * (sum >> 16);
            sum.wrapping_mul(self.factor).wrapping_add(half).wrapping_add(u32::from(byte))
        })
    }

    fn told(&self, folded: u32) -> u32 {
        folded.wrapping_add(folded >> self.shift) % self.many
    }

    /// The letter that, behind what was folded, makes the number 0, if there is one.
    fn last(&self, before: u32) -> Option<u8> {
        let folded = self.fold(before, &[0]);
        let letter = u8::try_from(self.many - self.told(folded)).ok().filter(|letter| LETTERS.contains(letter))?;
        (self.told(folded.wrapping_add(u32::from(letter))) == 0).then_some(letter)
    }

    /// Keys of so many letters of which it is 0.
    fn zero(&self, letters: usize) -> impl Iterator<Item = Vec<u8>> + '_ {
        (0..1usize << (6 * (letters - 2))).flat_map(move |i| {
            let key = lettered(i, letters - 2);
            let folded = self.fold(0, &key);
            LETTERS.iter().filter_map(move |&letter| {
                let last = self.last(self.fold(folded, &[letter]))?;
                Some([&key[..], &[letter, last]].concat())
            })
        })
    }
}

/// Keys of as few letters as are enough, that all belong to one chain.
pub fn of_one_chain(most: usize) -> String {
    object(CHAIN.zero(if most > SOME { 5 } else { 4 }), most)
}

/// The i-th key of so many pairs of letters, all of one mark: twice the first and the second are the same for each pair.
pub(crate) fn marked(i: usize, pairs: usize) -> Vec<u8> {
    let pair = |place| [b"ao", b"bm", b"ck", b"di", b"eg", b"fe", b"gc", b"ha"][i >> (3 * place) & 7];
    (0..pairs).flat_map(pair).copied().collect()
}

/// Keys that have one mark.
pub fn of_one_mark(most: usize) -> String {
    let pairs = if most > SOME { 6 } else { 4 };
    let count = 1usize << (3 * pairs);
    object((0..count).map(|i| marked(i * 37 % count, pairs)), most)
}

/// Keys that have one mark and belong to one chain.
pub fn of_one_mark_and_chain(most: usize) -> String {
    let pairs = if most > SOME { 9 } else { 8 };
    let tails: Vec<_> = (0..1 << 9).map(|i| marked(i, 3)).map(|tail| (CHAIN.fold(0, &tail), tail)).collect();
    let keys = (0..1usize << (3 * (pairs - 3))).flat_map(|i| {
        let key = marked(i, pairs - 3);
        let before = CHAIN.fold(CHAIN.fold(0, &key), &[0; 6]);
        let ends = tails.iter().filter(move |tail| CHAIN.told(before.wrapping_add(tail.0)) == 0);
        ends.map(move |tail| [&key[..], &tail.1].concat())
    });
    object(keys, most)
}

/// Keys of 200 bytes that share their last 32, on which alone a mark depends.
pub fn of_one_end(most: usize) -> String {
    object((0..most / 200).map(|i| format!("{i:0168}{:-<32}", "").into_bytes()), most)
}

/// Keys of six letters that are all of one class in the first round.
pub fn of_one_class(most: usize) -> String {
    object(CLASS.zero(6), most)
}

/// Pairs of keys that a sum of products does not tell apart, whatever its odd factor is: the two differ by 64 in each of 64
/// letters, by the signs of Thue and Morse, and the product of x - 1, x² - 1, up to x³² - 1 has 26 factors of two.
pub fn of_one_sum(most: usize) -> String {
    object((0..1 << 18).map(|i| lettered(i, 3)).flat_map(|before| ends().map(|end| [&before[..], &end].concat())), most)
}

fn ends() -> [Vec<u8>; 2] {
    let letter = |i: u32, other: bool| if (i.count_ones() % 2 == 1) != other { b'p' } else { b'0' };
    [false, true].map(|other| (0..64).map(|place| letter(place, other)).collect())
}

/// The same, all of one chain too. Their marks are two: those of the last 32 letters.
pub fn of_one_sum_and_chain(most: usize) -> String {
    let ends = ends();
    let power = (0..64).fold(1u32, |power, _| power.wrapping_mul(CHAIN.factor));
    let behind = CHAIN.fold(0, &ends[0]);
    let is_one = |before: &Vec<u8>| CHAIN.told(CHAIN.fold(0, before).wrapping_mul(power).wrapping_add(behind)) == 0;
    let before = (0..1usize << 30).map(|i| lettered(i, 5)).filter(is_one);
    object(before.flat_map(|before| ends.clone().map(|end| [&before[..], &end].concat())), most)
}

/// The same with the 64 letters in front, so that half of the keys share them, all of them of two marks, and of so few chains
/// that each is long.
pub fn of_one_sum_and_mark(most: usize) -> String {
    let begins = ends();
    let before = CHAIN.fold(0, &begins[0]);
    let behind = (0..1usize << 18).map(|i| marked(i, 6)).filter(|end| CHAIN.told(CHAIN.fold(before, end)) < 100);
    object(behind.flat_map(|end| begins.clone().map(|begin| [begin, end.clone()].concat())), most)
}

/// Keys of 264 bytes that differ in their last eight alone.
pub fn of_one_beginning(most: usize) -> String {
    object((0..most / 264).map(|i| format!("{:-<256}{i:08}", "").into_bytes()), most)
}

/// Keys of 268 bytes that share their first 256, all of one mark, and of so few chains that each is long.
pub fn of_one_beginning_and_mark(most: usize) -> String {
    let begin = [b'-'; 256];
    let before = CHAIN.fold(0, &begin);
    let ends = (0..1usize << 18).map(|i| marked(i, 6)).filter(|end| CHAIN.told(CHAIN.fold(before, end)) < 100);
    object(ends.map(|end| [&begin[..], &end].concat()), most)
}

/// Keys that differ behind all that is in a hash, so that each round's is the same for all; as they stand, and in quotes.
pub fn of_one_hash(most: usize) -> String {
    object((0..most / HASHED).map(|i| format!("{:-<HASHED$}{i:04}", "").into_bytes()), most)
}

pub fn of_one_hash_in_quotes(most: usize) -> String {
    object((0..most / HASHED).map(|i| format!("\"{:-<HASHED$}{i:04}\"", "").into_bytes()), most)
}

/// So many keys of three letters in an object below 31 arrays; and an array of strings there, of as many bytes.
pub fn below_arrays(count: usize) -> [String; 2] {
    let below = |open: &str, shut: &str, parts: &mut dyn Iterator<Item = String>| {
        let parts = parts.collect::<Vec<_>>().join(", ");
        format!("{}{open}{parts}{shut}{}\n", "[".repeat(31), "]".repeat(31))
    };
    let key = |i| String::from_utf8_lossy(&lettered(i, 3)).into_owned();
    let object = below("{", "}", &mut (0..count).map(|i| format!("{}: 1", key(i))));
    [object, below("[", "]", &mut (0..count).map(|i| format!("\"{}-\"", key(i))))]
}

/// The same lines, the last first.
pub fn reversed(object: &str) -> String {
    object.lines().rev().map(|line| format!("{line}\n")).collect()
}

/// As many keys of the same length, none of them among the short ones.
pub fn others(object: &str) -> String {
    object.replace("key", "kez")
}

/// The same lines as strings of an array: as many bytes to judge, and no keys.
pub fn as_array(object: &str) -> String {
    object.lines().map(|line| format!("- \"{}\"\n", line[4..].replace('"', "-"))).collect()
}

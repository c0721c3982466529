//! Versions as lists of digits: random ones, and those that are one step away from another.

use crate::documents::Rng;
use crate::second::decide::Decision;

/// The digits of a version's numbers, without leading zeros.
pub type Version = Vec<String>;

/// Numbers at which something may turn over: a digit more, and what machine words and floats hold.
const BORDERS: [u128; 8] = [10, 100, 1_000, 1 << 31, 1 << 32, 1 << 53, 1 << 63, 1 << 64];

pub fn random(rng: &mut Rng) -> Version {
    (0..1 + rng.below(8)).map(|_| number(rng)).collect()
}

fn number(rng: &mut Rng) -> String {
    match rng.below(16) {
        0..=3 => "0".into(),
        4..=9 => rng.below(12).to_string(),
        10..=11 => rng.below(1_000).to_string(),
        12..=13 => (BORDERS[rng.below(BORDERS.len())] - 1 + rng.below(3) as u128).to_string(),
        14 => rng.word().to_string(),
        _ => {
            let length = 15 + rng.below(50);
            digits(rng, length)
        }
    }
}

/// A number of so many digits.
fn digits(rng: &mut Rng, length: usize) -> String {
    let first = char::from(b'1' + rng.below(9) as u8);
    let rest = (1..length).map(|_| char::from(b'0' + rng.below(10) as u8));
    std::iter::once(first).chain(rest).collect()
}

/// Numbers of about 1,000 digits each.
pub fn long(rng: &mut Rng) -> Version {
    let length = 998 + rng.below(5);
    (0..1 + rng.below(8)).map(|_| digits(rng, length)).collect()
}

/// The same version, or one step away: a digit, a place, zeros at the end, one more or less.
pub fn near(rng: &mut Rng, version: &Version) -> Version {
    let mut near = version.clone();
    let at = rng.below(near.len());
    match rng.below(11) {
        0 => {}
        1 => near[at] = other_digit(rng, &near[at]),
        2 => near[at].push(char::from(b'0' + rng.below(10) as u8)),
        3 => drop(near[at].pop()),
        4 => near[at] = one_more(&near[at]),
        5 => near.truncate(at + 1),
        6 => near.push(number(rng)),
        7 => near.resize(near.len() + 1 + rng.below(8), "0".into()),
        8 => near.truncate(near.iter().rposition(|number| number != "0").unwrap_or(0) + 1),
        9 => near.swap(0, at),
        _ => near[at] = number(rng),
    }
    near.truncate(8);
    near.iter_mut().for_each(|number| *number = plain(number));
    near
}

fn other_digit(rng: &mut Rng, number: &str) -> String {
    let mut bytes = number.as_bytes().to_vec();
    let at = rng.below(bytes.len());
    bytes[at] = b'0' + rng.below(10) as u8;
    String::from_utf8(bytes).expect("digits")
}

fn one_more(number: &str) -> String {
    let kept = number.trim_end_matches('9');
    let nines = number.len() - kept.len();
    let (before, last) = kept.split_at(kept.len().saturating_sub(1));
    let last = last.bytes().next().unwrap_or(b'0') + 1;
    format!("{before}{}{}", char::from(last), "0".repeat(nines))
}

/// Without leading zeros; no digits are zero.
fn plain(number: &str) -> String {
    match number.trim_start_matches('0') {
        "" => "0".into(),
        number => number.into(),
    }
}

/// The decision, where all numbers fit into 128 bits.
pub fn known(version: &Version, floor: &Version, installed: &Version) -> Option<Decision> {
    let [version, floor, installed] = [words(version)?, words(floor)?, words(installed)?];
    Some(match version > installed {
        true if floor > installed => Decision::Blocked,
        true => Decision::Install,
        false => Decision::Keep,
    })
}

fn words(version: &Version) -> Option<[u128; 8]> {
    let mut words = [0; 8];
    for (word, number) in words.iter_mut().zip(version) {
        *word = number.parse().ok()?;
    }
    Some(words)
}

#[cfg(test)]
mod tests {
    use super::*;

    #[test]
    fn steps() {
        assert_eq!(["9", "10", "199", "0"].map(one_more), ["10", "11", "200", "1"]);
        assert_eq!(["", "00", "010"].map(plain), ["0", "0", "10"]);
    }

    #[test]
    fn near_versions_are_versions() {
        let mut rng = Rng::new(1);
        for _ in 0..5_000 {
            let version = random(&mut rng);
            let near = near(&mut rng, &version);
            assert!((1..=8).contains(&near.len()), "{near:?}");
            assert!(near.iter().all(|number| *number == plain(number)), "{near:?}");
        }
    }
}

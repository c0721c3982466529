//! Sheets and installed versions as people write them: leading zeros, spaces in numbers, `-0`, keys in quotes and escaped,
//! blocks and inline forms, comments.

use super::versions::Version;
use crate::documents::Rng;
use crate::hex;

/// A number's digits; spaces stand in those of blocks alone.
fn number(rng: &mut Rng, digits: &str, in_block: bool) -> String {
    match rng.below(6) {
        0 => format!("{}{digits}", "0".repeat(1 + rng.below(3))),
        1 if digits == "0" => "-0".into(),
        2 if in_block => digits.chars().map(String::from).collect::<Vec<_>>().join(" "),
        _ => digits.into(),
    }
}

fn inline(rng: &mut Rng, version: &Version) -> String {
    let numbers: Vec<_> = version.iter().map(|digits| number(rng, digits, false)).collect();
    format!("[{}]", numbers.join(", "))
}

fn block(rng: &mut Rng, version: &Version, indent: &str) -> String {
    let lines: Vec<_> = version.iter().map(|digits| format!("{indent}- {}", number(rng, digits, true))).collect();
    lines.join("\n")
}

fn key(rng: &mut Rng, name: &str) -> String {
    let escaped = || format!("\\u{{{:x}}}{}", name.as_bytes()[0], &name[1..]);
    match rng.below(5) {
        0 => format!("\"{name}\""),
        1 => format!("'{name}'"),
        2 => format!("\"{}\"", escaped()),
        _ => name.into(),
    }
}

/// The text of an installed version's document.
pub fn installed(rng: &mut Rng, version: &Version) -> String {
    match rng.below(3) {
        0 => block(rng, version, "") + "\n",
        1 => format!("# What this tablet has.\n{}\n", inline(rng, version)),
        _ => inline(rng, version) + "\n",
    }
}

/// The text of a sheet's document, its keys in any order.
pub fn sheet(rng: &mut Rng, version: &Version, floor: &Version, image: &[u8]) -> String {
    let mut parts = [("version", Some(version)), ("floor", Some(floor)), ("image", None)];
    parts.swap(0, rng.below(3));
    parts.swap(1, 1 + rng.below(2));
    let braces = rng.once_in(4);
    let text = |(name, version): (&str, Option<&Version>)| {
        let key = key(rng, name);
        match version {
            None => format!("{key}: <{}>", hex::show(image)),
            Some(version) if braces || rng.once_in(2) => format!("{key}: {}", inline(rng, version)),
            Some(version) => format!("{key}:\n{}", block(rng, version, "  ")),
        }
    };
    let texts = parts.map(text);
    if braces {
        format!("{{{}}}\n", texts.join(", "))
    } else {
        texts.join("\n") + "\n"
    }
}

//! `yay overlay`: profiles laid over each other, the first the lowest. What is laid and the numbers are the proved
//! function's; where a clash stands is read off the tables.

use crate::accepted::accept;
use crate::input::{self, Input};
use crate::outline::broken;
use crate::output;
use crate::refused::{self, Shown};
use crate::stop::{complain, Done, Stop};
use crate::words::Words;
use std::io::Write;
use yay::{clash, Clash, Document, Kind, Number, Place, Row, Tree, Unlaid, ROOT};

/// A profile that was read, and the input that it came from.
struct Side {
    input: Input,
    document: Document,
}

pub fn run(words: &Words, out: &mut dyn Write) -> Done {
    let sides = sides(words)?;
    let written = laid(&sides)?.written().map_err(|no| {
        complain(&format!("all laid over {}: {no}", sides[0].input.name));
        Stop::Refused
    })?;
    match words.value("--output") {
        Some(file) if file != "-" => output::replace(file, &written),
        _ => Ok(out.write_all(&written)?),
    }
}

/// All profiles, in their order.
fn sides(words: &Words) -> Result<Vec<Side>, Stop> {
    if words.plain.len() < 2 {
        return Err(words.wrong("needs a profile and one or more that are laid over it"));
    }
    if words.plain.iter().filter(|file| *file == "-").count() > 1 {
        return Err(words.wrong("takes standard input for one of the files"));
    }
    let inputs: Result<Vec<_>, _> = words.plain.iter().map(|file| input::open(file, words.form())).collect();
    inputs?.into_iter().map(side).collect()
}

/// A profile whose root is an object.
fn side(input: Input) -> Result<Side, Stop> {
    let document = accept(&input)?;
    let (kind, span) = (document.tree().kind(ROOT).map_err(broken)?, document.tree().span(ROOT).map_err(broken)?);
    if kind != Kind::Object {
        let sentence = format!("profiles laid over each other are objects, and this is {}", kind.with_article());
        refused::say_wrong(&input, Number::BadRow, span.start, &sentence);
        return Err(Stop::Refused);
    }
    Ok(Side { input, document })
}

/// Each profile over what those before it gave.
fn laid(sides: &[Side]) -> Result<Document, Stop> {
    let mut so_far = sides[0].document.clone();
    for upper in 1..sides.len() {
        let over = sides[upper].document.tree();
        so_far = match so_far.overlaid(&over) {
            Ok(laid) => laid,
            Err(no) => return Err(say(no, &so_far, sides, upper)?),
        };
    }
    Ok(so_far)
}

/// Says why a profile cannot be laid over what those before it gave.
fn say(unlaid: Unlaid, so_far: &Document, sides: &[Side], upper: usize) -> Result<Stop, Stop> {
    match clash(&so_far.tree(), &sides[upper].document.tree()).filter(|_| unlaid == Unlaid::Clash) {
        Some(clash) => say_clash(&clash, sides, upper)?,
        None => drop(complain(&format!("{}: {unlaid}", sides[upper].input.name))),
    }
    Ok(Stop::Refused)
}

/// Both keys of a clash, each in the file that holds it.
fn say_clash(clash: &Clash, sides: &[Side], upper: usize) -> Done {
    let lower = holder(&sides[..upper], &clash.path).ok_or_else(|| broken(Number::BadRow))?;
    let (below, above) = (&sides[lower.0], &sides[upper]);
    let [is, over] = clash.kinds.map(Kind::with_article);
    let (below_key, above_key) = (Row(lower.1 .0 - 1), Row(clash.upper.0 - 1));
    let shown = |side: &Side, key: Row, kind: &str| -> Result<(Place, String), Stop> {
        let place = side.document.tree().span(key).map_err(broken)?.start;
        Ok((place, format!(" {kind}, in {}", side.input.name)))
    };
    let (below_place, below_label) = shown(below, below_key, &is)?;
    let (above_place, above_label) = shown(above, above_key, &over)?;
    let sentence =
        format!("the key {} is {over} here, and {is} in {}", clash.shown_path(), below.input.at(below_place));
    refused::say_both(
        Number::Clash,
        &sentence,
        Shown { input: &below.input, place: below_place, label: &below_label },
        Shown { input: &above.input, place: above_place, label: &above_label },
    );
    Ok(())
}

/// The last of these profiles that has the key, and its value's row: whose value stands there, since each answers for those
/// before it; an object has pairs of all of them that have the key.
fn holder(sides: &[Side], path: &[String]) -> Option<(usize, Row)> {
    let find = |tree: Tree| path.iter().try_fold(ROOT, |row, key| tree.find(row, key)).ok();
    let found = |(i, side): (usize, &Side)| find(side.document.tree()).map(|row| (i, row));
    sides.iter().enumerate().rev().find_map(found)
}

//! A refusal as people see it: `file:line:column: NAME (number): sentence`, the line, and a caret under the place.

use crate::input::{Form, Input};
use crate::quote::quote;
use std::fmt::Write;
use std::io::{self, IsTerminal};
use yay::{first_key, form_fault, position, Document, Number, Place, Refusal, Unloaded, LONGEST, LONGEST_STORED};

/// Escape codes for a terminal, or nothing.
struct Ink {
    bold: &'static str,
    red: &'static str,
    off: &'static str,
}

const PLAIN: Ink = Ink { bold: "", red: "", off: "" };
const COLOURS: Ink = Ink { bold: "\x1b[1m", red: "\x1b[1;31m", off: "\x1b[0m" };

/// Says on standard error why a document is refused.
pub fn say(input: &Input, refusal: Refusal) {
    let mut report = report(input, refusal, &ink());
    if Document::load(&input.bytes).is_ok() {
        report += "yay: this is a stored form, which load shows, and --stored reads\n";
    }
    print(&report);
}

/// Says on standard error why bytes are no stored form.
pub fn say_unloaded(input: &Input, unloaded: Unloaded) {
    print(&report_unloaded(input, unloaded, &ink()));
}

/// Says on standard error what is wrong at a place of a document that was read, or of a stored form that was loaded.
pub fn say_wrong(input: &Input, number: Number, place: Place, sentence: &str) {
    let ink = ink();
    let mut report = headline(input, number, place, sentence, &ink);
    show(&mut report, input, place, "", &ink);
    print(&report);
}

/// A place of an input, and what is said behind its caret.
pub struct Shown<'a> {
    pub input: &'a Input,
    pub place: Place,
    pub label: &'a str,
}

/// Says on standard error what is wrong with the last of two places, and shows both.
pub fn say_both(number: Number, sentence: &str, first: Shown, last: Shown) {
    let ink = ink();
    let mut report = headline(last.input, number, last.place, sentence, &ink);
    for shown in [first, last] {
        show(&mut report, shown.input, shown.place, shown.label, &ink);
    }
    print(&report);
}

fn ink() -> Ink {
    let wanted = std::env::var_os("NO_COLOR").is_none_or(|value| value.is_empty());
    if io::stderr().is_terminal() && wanted {
        COLOURS
    } else {
        PLAIN
    }
}

/// Where standard error is closed there is nobody to tell.
fn print(report: &str) {
    let _ = io::Write::write_all(&mut io::stderr(), report.as_bytes());
}

fn report(input: &Input, refusal: Refusal, ink: &Ink) -> String {
    let sentence = refusal.sentence(&input.bytes);
    let known = input.length.filter(|length| refusal.number == Number::Long && *length > LONGEST as u64);
    let length = known.map_or(String::new(), |length| format!("; the file has {length}"));
    let mut report = headline(input, refusal.number, refusal.place, &(sentence + &length), ink);
    match refusal.number {
        Number::Long => {}
        Number::Repeat => {
            if let Some((_, first)) = first_key(&input.bytes, refusal.place) {
                show(&mut report, input, first, " first", ink);
            }
            show(&mut report, input, refusal.place, " again", ink);
        }
        _ => show(&mut report, input, refusal.place, "", ink),
    }
    report
}

fn report_unloaded(input: &Input, unloaded: Unloaded, ink: &Ink) -> String {
    let number = unloaded.number();
    let Some(fault) = form_fault(&input.bytes) else {
        return headline(input, number, Place(0), number.meaning(), ink);
    };
    let known = input.length.filter(|length| *length > LONGEST_STORED as u64);
    let length = known.map_or(String::new(), |length| format!("; the file has {length}"));
    let sentence = format!("{}: {}{length}", number.meaning(), fault.sentence);
    let mut report = headline(input, number, fault.place, &sentence, ink);
    if Document::read(&input.bytes).is_ok() {
        report += "yay: this is a document, which show shows, and which is read without --stored\n";
    }
    report
}

fn headline(input: &Input, number: Number, place: Place, sentence: &str, ink: &Ink) -> String {
    let Ink { bold, red, off } = ink;
    format!("{bold}{}:{off} {red}{} ({}){off}: {sentence}\n", input.at(place), number.name(), number.code())
}

/// The line of a place, and a caret below it; a stored form has no lines.
fn show(report: &mut String, input: &Input, place: Place, label: &str, ink: &Ink) {
    if input.form == Form::Stored {
        return;
    }
    let doc = &input.bytes;
    let (line, caret) = quote(doc, place);
    let Ink { red, off, .. } = ink;
    let row = format!("{:>5} | {line}", position(doc, place).line);
    let _ = writeln!(report, "{}", row.trim_end());
    let _ = writeln!(report, "      | {}{red}^{label}{off}", " ".repeat(caret));
}

#[cfg(test)]
mod tests {
    use super::*;

    fn shown(doc: &[u8], ink: &Ink) -> String {
        let input = Input { name: "f.yay".into(), bytes: doc.to_vec(), form: Form::Document, length: None };
        report(&input, yay::Document::read(doc).expect_err("refused"), ink)
    }

    #[test]
    fn the_line_and_a_caret() {
        let wanted = "f.yay:2:13: SYNTAX (3): \"2\" may not stand here; one space must follow \",\"\n    \
                      2 | version: [1,2]\n      |             ^\n";
        assert_eq!(shown(b"a: 1\nversion: [1,2]\n", &PLAIN), wanted);
    }

    #[test]
    fn a_space_at_the_end_is_shown() {
        let wanted = "f.yay:1:6: SYNTAX (3): a line may not end in a space\n    1 | a: 1␠⏎\n      |      ^\n";
        assert_eq!(shown(b"a: 1 \n", &PLAIN), wanted);
    }

    #[test]
    fn a_repeat_shows_both_keys() {
        let wanted = "f.yay:3:1: REPEAT (6): the key \"a\" stands in its object already, at 1:1\n    \
                      1 | a: 1\n      | ^ first\n    3 | \"a\": 2\n      | ^ again\n";
        assert_eq!(shown(b"a: 1\nb: {a: 3}\n\"a\": 2\n", &PLAIN), wanted);
    }

    #[test]
    fn escape_codes_for_terminals_alone() {
        assert!(!shown(b"a", &PLAIN).contains('\x1b'));
        assert!(shown(b"a", &COLOURS).contains("\x1b[1;31mEND (5)\x1b[0m"));
    }
}

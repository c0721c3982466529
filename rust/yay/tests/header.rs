//! The two C headers and the crate say the same: limits, numbers, names, sentences, kinds and parameters.

use yay::{Decision, Kind, Number, IMAGE, LONGEST, LONGEST_STORED, MOST, NAMES, NESTING, PLACES, WORDS};

fn header(name: &str) -> String {
    let path = format!("{}/../../include/{name}", env!("CARGO_MANIFEST_DIR"));
    std::fs::read_to_string(path).expect("the header")
}

/// The value of `#define NAME value`.
fn defined(header: &str, name: &str) -> u64 {
    let line = header.lines().find_map(|line| line.strip_prefix("#define ")?.strip_prefix(name)?.strip_prefix(' '));
    let value = line.and_then(|value| value.split_whitespace().next()).unwrap_or_else(|| panic!("no {name}"));
    value.parse().expect("a number")
}

/// The strings of an array in a function of the header.
fn strings(header: &str, function: &str) -> Vec<String> {
    let body = header.split_once(&format!("{function}(")).expect("the function").1;
    let list = body.split_once("= {").expect("an array").1.split_once("};").expect("its end").0;
    list.split('"').skip(1).step_by(2).map(String::from).collect()
}

#[test]
fn limits() {
    let header = header("yay.h");
    assert_eq!(defined(&header, "YAY_LONGEST"), LONGEST as u64);
    assert_eq!(defined(&header, "YAY_STORED_LONGEST"), LONGEST_STORED as u64);
    assert_eq!(defined(&header, "YAY_NESTING"), NESTING as u64);
    assert_eq!(defined(&header, "YAY_WORDS"), WORDS as u64);
    assert_eq!(defined(&header, "YAY_MOST"), MOST as u64);
    assert_eq!(defined(&header, "YAY_PLACES"), PLACES as u64);
    assert_eq!(defined(&header, "YAY_IMAGE"), IMAGE as u64);
}

#[test]
fn words_of_a_row() {
    let header = header("yay.h");
    for (index, name) in NAMES.iter().enumerate() {
        let name = match *name {
            "start" => "TEXT_FROM".into(),
            "end" => "TEXT_TO".into(),
            name => name.to_uppercase(),
        };
        assert_eq!(defined(&header, &format!("YAY_{name}")), index as u64);
    }
}

#[test]
fn numbers() {
    let (proved, help) = (header("yay.h"), header("yay_help.h"));
    let (names, sentences) = (strings(&help, "yay_number_name"), strings(&help, "yay_number_sentence"));
    let numbers: Vec<_> = (0..100).filter_map(Number::from_code).collect();
    let last = Number::Clash.code() as usize;
    // There is no 12.
    assert_eq!((numbers.len(), names.len(), sentences.len()), (last - 1, last + 1, last + 1));
    assert_eq!((names[12].as_str(), sentences[12].as_str(), proved.contains("YAY_WIDE")), ("", "", false));
    for number in numbers {
        let code = number.code() as usize;
        assert_eq!(defined(&proved, &format!("YAY_{}", number.name())), code as u64);
        assert_eq!((names[code].as_str(), sentences[code].as_str()), (number.name(), number.meaning()));
    }
}

#[test]
fn decisions() {
    let header = header("yay.h");
    let decisions: Vec<_> = (0..100).filter_map(Decision::from_code).collect();
    assert_eq!(decisions, [Decision::Install, Decision::Keep, Decision::Blocked]);
    for decision in decisions {
        let name = format!("YAY_{}", decision.name().to_uppercase());
        assert_eq!(defined(&header, &name), u64::from(decision.code()));
    }
}

#[test]
fn kinds() {
    let (proved, names) = (header("yay.h"), strings(&header("yay_help.h"), "yay_kind_name"));
    let kinds: Vec<_> = (1..).map_while(Kind::from_code).collect();
    assert_eq!(names.len(), kinds.len() + 1);
    for kind in kinds {
        assert_eq!(defined(&proved, &format!("YAY_{}", kind.name().to_uppercase())), kind as u64);
        assert_eq!(names[kind as usize], kind.name());
    }
}

/// The names of a function's parameters where it stands first.
fn parameters(text: &str, function: &str, name: fn(&str) -> Option<&str>) -> Vec<String> {
    let list = text.split_once(&format!("{function}(")).expect("the function").1.split_once(')').expect("its end").0;
    list.split(',').filter_map(|parameter| name(parameter.trim())).map(String::from).collect()
}

#[test]
fn parameters_of_the_functions() {
    let (proved, linked) = (header("yay.h"), include_str!("../src/sys.rs"));
    let functions = [
        ("yay_read", 9),
        ("yay_text", 8),
        ("yay_find", 9),
        ("yay_compare", 5),
        ("yay_sound", 5),
        ("yay_write", 8),
        ("yay_decide", 11),
        ("yay_overlay", 16),
        ("yay_store", 8),
        ("yay_load", 8),
    ];
    for (function, count) in functions {
        let in_c = parameters(&proved, function, |parameter| parameter.rsplit([' ', '*']).next());
        let in_rust = parameters(linked, function, |parameter| Some(parameter.split_once(':')?.0));
        assert_eq!((in_c.len(), in_c), (count, in_rust), "{function}");
    }
}

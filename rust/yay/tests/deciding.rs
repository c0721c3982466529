//! The upgrade decision, and what is said of sheets and installed versions that are none.

use yay::{decide, installed_fault, sheet_fault, Decision, Document, Number, Tree, Undecided, IMAGE, PLACES};

const BYTES: &str = "<9f86d081884c7d659a2feaa0c55ad015a3bf4f1b2b0b822cd15d6c15b0f00a08>";

fn read(doc: &str) -> Document {
    Document::read(doc.as_bytes()).unwrap_or_else(|refusal| panic!("{doc:?}: {refusal}"))
}

fn sheet(version: &str, floor: &str) -> String {
    format!("version: {version}\nfloor: {floor}\nimage: {BYTES}\n")
}

/// The decision; there is a fault exactly where there is none.
fn decided(sheet: &str, installed: &str) -> Result<Decision, Undecided> {
    let (sheet, installed) = (read(sheet), read(installed));
    let answer = decide(&sheet.tree(), &installed.tree());
    let faults = (sheet_fault(&sheet.tree()).is_some(), installed_fault(&installed.tree()).is_some());
    match answer {
        Ok(_) => assert_eq!(faults, (false, false)),
        Err(Undecided::Sheet) => assert_eq!(faults, (true, false)),
        Err(Undecided::Installed) => assert!(faults.1),
    }
    answer
}

#[test]
fn numbers_place_by_place() {
    let long = |last: &str| format!("[{}{last}]", "7".repeat(1_000));
    for (version, floor, installed, wanted) in [
        ("[10]", "[0]", "[9]", Decision::Install),
        ("[9]", "[0]", "[10]", Decision::Keep),
        ("[10]", "[0]", "[10, 0]", Decision::Keep),
        ("[10, 0, 1]", "[0]", "[10]", Decision::Install),
        ("[10]", "[9, 5]", "[9, 4]", Decision::Blocked),
        ("[10]", "[9, 5]", "[9, 5]", Decision::Install),
        ("[10]", "[9, 10]", "[9, 9]", Decision::Blocked),
        ("[9]", "[11]", "[10]", Decision::Keep),
        ("[10]", "[11]", "[9]", Decision::Blocked),
        ("[010]", "[-0]", "[09]", Decision::Install),
        ("[18446744073709551616]", "[0]", "[18446744073709551615]", Decision::Install),
        (&long("9"), "[0]", &long("8"), Decision::Install),
        (&long("8"), "[0]", &long("9"), Decision::Keep),
        (&long("9"), &long("8"), &long("7"), Decision::Blocked),
    ] {
        assert_eq!(decided(&sheet(version, floor), &format!("{installed}\n")), Ok(wanted), "{version} {installed}");
    }
}

#[test]
fn keys_in_any_order_and_form() {
    for doc in [
        format!("{{image: {BYTES}, floor: [9], version: [10]}}\n"),
        format!("\"\\u{{76}}ersion\":\n  - 10\n'floor': [9]\n\"image\": >\n  {}\n", &BYTES[1..65]),
    ] {
        assert_eq!(decided(&doc, "- 9\n"), Ok(Decision::Install), "{doc}");
    }
}

#[test]
fn what_is_no_sheet() {
    let only = "a sheet has the keys version, floor and image, and no other";
    let of = |version: &str, floor: &str, image: &str| format!("version: {version}\nfloor: {floor}\nimage: {image}\n");
    for (doc, row, said) in [
        ("[[10], [9]]\n".into(), 0, "a sheet is an object, and this is an array".into()),
        ("null\n".into(), 0, "a sheet is an object, and this is null".into()),
        ("version: [10]\nfloor: [9]\n".into(), 0, format!("the key image is missing; {only}")),
        (of("[10]", "[9]", BYTES).replace("version", "Version"), 0, format!("the key version is missing; {only}")),
        (of("[10]", "[9]", BYTES) + "\"a b\": 1\n", 9, format!("the key \"a b\" is too much; {only}")),
        (of("[]", "[9]", BYTES), 2, "version has 1 to 8 places, and this has 0".into()),
        (of("10", "[9]", BYTES), 2, "version is an array, and this is an integer".into()),
        (of("[10, -2]", "[9]", BYTES), 4, "each place of version is not below zero, and this is".into()),
        (of("[10]", "[9, 1.5]", BYTES), 7, "each place of floor is an integer, and this is a float".into()),
        (of("[10]", "[[9]]", BYTES), 6, "each place of floor is an integer, and this is an array".into()),
        (of("[10]", "[1, 2, 3, 4, 5, 6, 7, 8, 0]", BYTES), 5, "floor has 1 to 8 places, and this has 9".into()),
        (of("[10]", "[9]", "\"9f86\""), 8, "image is bytes, and this is a string".into()),
        (of("[10]", "[9]", "<00>"), 8, "image has 32 bytes, and this has 1".into()),
        (of("[10]", "[9]", &BYTES.replacen("9f", "", 1)), 8, "image has 32 bytes, and this has 31".into()),
    ] {
        assert_eq!(decided(&doc, "[9]\n"), Err(Undecided::Sheet), "{doc}");
        let fault = sheet_fault(&read(&doc).tree()).expect("a fault");
        assert_eq!((fault.row.0, fault.to_string()), (row, said), "{doc}");
    }
}

#[test]
fn what_is_no_installed_version() {
    for (doc, row, said) in [
        ("10\n", 0, "an installed version is an array, and this is an integer"),
        ("version: [10]\n", 0, "an installed version is an array, and this is an object"),
        ("[]\n", 0, "an installed version has 1 to 8 places, and this has 0"),
        ("[1, 2, 3, 4, 5, 6, 7, 8, 9]\n", 0, "an installed version has 1 to 8 places, and this has 9"),
        ("[10, \"2\"]\n", 2, "each place of an installed version is an integer, and this is a string"),
        ("[-1]\n", 1, "each place of an installed version is not below zero, and this is"),
    ] {
        assert_eq!(decided(&sheet("[10]", "[9]"), doc), Err(Undecided::Installed), "{doc}");
        assert_eq!(decided("[]\n", doc), Err(Undecided::Installed), "{doc}");
        let fault = installed_fault(&read(doc).tree()).expect("a fault");
        assert_eq!((fault.row.0, fault.to_string().as_str()), (row, said), "{doc}");
    }
}

#[test]
fn tables_that_are_not_sound() {
    let (sheet, installed) = (read(&sheet("[10]", "[9]")), read("[9]\n"));
    let (sheet, installed) = (sheet.tree(), installed.tree());
    for (one, other, wanted) in [
        (sheet.rows(), installed.rows(), Ok(Decision::Install)),
        (sheet.rows() - 1, installed.rows(), Err(Undecided::Sheet)),
        (sheet.rows(), installed.rows() + 1, Err(Undecided::Installed)),
        (0, 0, Err(Undecided::Installed)),
    ] {
        let one = Tree::new(sheet.table(), one, sheet.text_room());
        let other = Tree::new(installed.table(), other, installed.text_room());
        assert_eq!(decide(&one, &other), wanted);
        assert_eq!(sheet_fault(&one).is_none(), one.rows() == sheet.rows());
        assert_eq!(installed_fault(&other).is_none(), other.rows() == installed.rows());
    }
    let fault = sheet_fault(&Tree::new(&[], 0, &[])).expect("a fault");
    assert_eq!(fault.to_string(), "the table is not sound: no document gives it");
}

#[test]
fn names_and_numbers() {
    assert_eq!(
        [Decision::Install, Decision::Keep, Decision::Blocked].map(Decision::name),
        ["install", "keep", "blocked"]
    );
    assert_eq!((Undecided::Sheet.number(), Undecided::Installed.number()), (Number::BadSheet, Number::BadInst));
    assert_eq!((Number::BadSheet.code(), Number::BadInst.code()), (14, 15));
    assert_eq!(Undecided::Sheet.to_string(), "BADSHEET (14): this is no release sheet");
    assert_eq!(Undecided::Installed.to_string(), "BADINST (15): this is no installed version");
    assert_eq!((PLACES, IMAGE), (8, 32));
}

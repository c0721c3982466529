//! The commands' pages: what `yay --help` and `yay COMMAND --help` print, and the options that each takes.

pub struct Opt {
    /// Empty if there is none.
    pub short: &'static str,
    pub long: &'static str,
    /// What its value is called; empty if it takes none.
    pub value: &'static str,
    pub what: &'static str,
}

pub struct Page {
    pub name: &'static str,
    /// The words behind the name, options aside.
    pub words: &'static str,
    /// In a line, for the list of commands.
    pub short: &'static str,
    pub text: &'static str,
    pub options: &'static [Opt],
    /// Whether `-1` is a word and no option.
    pub integers: bool,
}

const COMPACT: Opt = Opt { short: "-c", long: "--compact", value: "", what: "JSON on one line, without spaces" };
const NUMBERS: Opt =
    Opt { short: "", long: "--numbers", value: "HOW", what: "numbers in JSON: json (the default), text or exact" };
const HELP: Opt = Opt { short: "-h", long: "--help", value: "", what: "this page" };

const OUTPUT: Opt = Opt { short: "-o", long: "--output", value: "OUT", what: "into this file, whole or not at all" };

const STORED: Opt =
    Opt { short: "", long: "--stored", value: "", what: "the files are stored forms, as store makes them" };

const PLACES: Opt = Opt {
    short: "-p",
    long: "--places",
    value: "",
    what: "line and column of each value before it; of a stored form, its byte",
};

const NUMBERS_TEXT: &str = "
A number is a JSON number with all its digits, whatever its size; nan and the infinities, for which JSON
has no number, are strings. With --numbers=text every number is a string of its text. With
--numbers=exact those are strings that a reader with binary64 numbers would change.
Bytes are an object of one pair, {\"$bytes\": \"00ff\"}.
";

pub const PAGES: [Page; 13] = [
    Page {
        name: "check",
        words: "FILE..",
        short: "whether each file is a document, or which line is wrong",
        text: "
Says of each file, in their order, that it is a document, with the count of its rows, its bytes of text
and, if it has any, its escapes; or shows on standard error why it is refused.
For more than one file the last line is 'N ok, M refused'.
",
        options: &[Opt { short: "-q", long: "--quiet", value: "", what: "refusals alone" }, STORED],
        integers: false,
    },
    Page {
        name: "show",
        words: "FILE",
        short: "the document as an indented outline",
        text: "
The document as an indented outline. Long texts are cut. If the document has escapes, the first line
says how many. Lines and columns count from 1, columns in characters.
",
        options: &[PLACES, STORED],
        integers: false,
    },
    Page {
        name: "rows",
        words: "FILE",
        short: "the table of rows: number, words, kind and text",
        text: "
The table of rows, one to a line: the row's number and its words, the kind's name and the text. The last
two words are the line and the column of the row's first byte, from 1, columns in characters; of a
stored form, which has no lines, both are 0.
",
        options: &[STORED],
        integers: false,
    },
    Page {
        name: "get",
        words: "FILE [KEY..]",
        short: "the value behind keys, and numbers from 0 in arrays",
        text: "
The value behind a path: in an object a key as it reads when decoded, in an array a number from 0.
A text is written as it is, bytes as hex, an array or object as JSON, and a line end behind it.
Where the path leads nowhere the exit status is 3. A key that begins with - stands behind --.
",
        options: &[
            Opt { short: "-r", long: "--raw", value: "", what: "the text or the bytes themselves, and no line end" },
            Opt { short: "-j", long: "--json", value: "", what: "as JSON, as the command json writes it" },
            COMPACT,
            NUMBERS,
            Opt { short: "-d", long: "--default", value: "TEXT", what: "this, as it is, where there is no such value" },
            STORED,
        ],
        integers: false,
    },
    Page {
        name: "json",
        words: "FILE",
        short: "the document as JSON",
        text: NUMBERS_TEXT,
        options: &[COMPACT, NUMBERS, STORED],
        integers: false,
    },
    Page {
        name: "write",
        words: "FILE",
        short: "the document written back in the house style",
        text: "
Writes the document back in the house style: block objects and arrays, [] and {} where empty, an array
in an array on one line; strings in double quotes, keys without quotes wherever that is allowed, bytes
inline, two spaces a level. Reading it gives the same values. COMMENTS ARE NOT KEPT.
OUT may be FILE itself: it is written beside and renamed, so that it is never half written.
",
        options: &[OUTPUT, STORED],
        integers: false,
    },
    Page {
        name: "fmt",
        words: "FILE..",
        short: "the same; with --check, which files are not in the house style",
        text: "
Writes one document back as the command write does; comments are not kept. With --check it writes none:
it names each file that is not in the house style, as no file with comments is, and the exit status is
1 if there is one.
",
        options: &[OUTPUT, Opt { short: "", long: "--check", value: "", what: "name the files that would be changed" }],
        integers: false,
    },
    Page {
        name: "decide",
        words: "SHEET [INSTALLED]",
        short: "whether to install what a release sheet names, and why",
        text: "
Writes install, keep or blocked, and why, on one line. The sheet is an object with exactly the keys
version, floor and image: two arrays of 1 to 8 integers not below zero, and 32 bytes. INSTALLED is such
an array. Versions compare place by place as numbers, and missing places count as zero.
install (exit status 0) if version is above what is installed and that is not below floor; keep (4) if
version is not above it; else blocked (5). What is no sheet or no installed version is refused (1).
",
        options: &[
            Opt {
                short: "",
                long: "--installed",
                value: "ARRAY",
                what: "this, as '[10, 2]', in the place of INSTALLED",
            },
            STORED,
        ],
        integers: false,
    },
    Page {
        name: "overlay",
        words: "FLEET SITE..",
        short: "profiles laid over each other, in the house style",
        text: "
Lays each profile over what those before it gave, and writes the result in the house style. A key that
one of two has is kept; of one that both have, objects are laid over each other in the same way, and of
two other values, arrays among them, the upper's stands. Keys keep the lower's order, then come new ones.
An object and another value of one key clash: both are shown, and the exit status is 1. COMMENTS ARE
NOT KEPT. OUT may be one of the files: it is written beside and renamed, so that it is never half written.
",
        options: &[OUTPUT, STORED],
        integers: false,
    },
    Page {
        name: "store",
        words: "FILE",
        short: "the document as a tablet keeps it, which is faster to load",
        text: "
Stores the document's tree as tagged fields, for tablets that shall not read text at each start: the
same kinds, texts and nesting, without lines, spans and comments. One tree has one stored form.
It is no text: without -o it is written to a pipe or a file alone, with -o - to a terminal too.
",
        options: &[OUTPUT],
        integers: false,
    },
    Page {
        name: "load",
        words: "FILE",
        short: "a stored form as an indented outline",
        text: "
What store has made, as an indented outline, as the command show has it of a document. The commands
check, show, rows, get, json, write, decide and overlay take stored forms too, with --stored.
A stored form has no lines: places are told as bytes, from 0.
",
        options: &[PLACES],
        integers: false,
    },
    Page {
        name: "compare",
        words: "A B",
        short: "-1, 0 or 1: how the integer A stands to B, of any length",
        text: "\nWrites -1, 0 or 1 as the integer A is less than B, equal or greater, whatever their length.\n",
        options: &[],
        integers: true,
    },
    Page {
        name: "batch",
        words: "",
        short: "documents on standard input, each behind its length; a line for each",
        text: "
Reads documents from standard input, each as four bytes of length, the least first, and its bytes, and
writes a line for each: 'no NUMBER PLACE', or 'ok ROWS TEXTBYTES ESCAPES', the words and the text as hex.
",
        options: &[],
        integers: false,
    },
];

const STATUS: &str =
    "Exit status: 0 good, of decide install; 1 refused, or not in the house style; 2 wrong words, or a file\nthat cannot be read or written; 3 not there; 4 keep; 5 blocked.\n";

/// What `yay --help` prints.
pub fn all() -> String {
    let mut text = String::from(
        "yay: reads, writes, overlays and stores YAY documents, and decides on upgrades, by proved functions\n\n",
    );
    for page in &PAGES {
        text += &format!("  yay {:<24} {}\n", format!("{} {}", page.name, page.words), page.short);
    }
    text += "  yay --help, --version\n\n";
    text += "'yay COMMAND --help' tells of a command and its options; -- ends the options.\n";
    text += &format!("A FILE of - is standard input. A document has at most {} bytes.\n", yay::LONGEST);
    text + STATUS + "The manual, man yay, has more.\n"
}

/// What `yay COMMAND --help` prints.
pub fn one(page: &Page) -> String {
    let options = if page.options.is_empty() { "" } else { "[OPTIONS] " };
    let mut text = format!("yay {} {options}{}", page.name, page.words).trim_end().to_owned() + "\n" + page.text + "\n";
    for option in page.options.iter().chain([&HELP]) {
        let short = if option.short.is_empty() { String::new() } else { format!("{}, ", option.short) };
        let value = if option.value.is_empty() { String::new() } else { format!("={}", option.value) };
        text += &format!("  {:<22} {}\n", format!("{short:>4}{}{value}", option.long), option.what);
    }
    text + "\n" + STATUS
}

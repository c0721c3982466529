//! Whether to install what a release sheet names.

use crate::refusal::Number;
use crate::sys;
use crate::tree::Tree;
use std::error::Error;
use std::fmt;

/// What is to be done with what a release sheet names.
#[derive(Clone, Copy, PartialEq, Eq, Hash, Debug)]
#[repr(u32)]
pub enum Decision {
    /// Its version is above the installed one, which is not below its floor.
    Install = 1,
    /// Its version is not above the installed one.
    Keep,
    /// Its version is above the installed one, but that is below its floor.
    Blocked,
}

impl Decision {
    const ALL: [Decision; 3] = [Decision::Install, Decision::Keep, Decision::Blocked];

    /// The decision of a number 1 to 3 as given by the C interface.
    pub fn from_code(code: u32) -> Option<Decision> {
        Decision::ALL.into_iter().find(|decision| decision.code() == code)
    }

    pub fn code(self) -> u32 {
        self as u32
    }

    /// In one word, as `install`.
    pub fn name(self) -> &'static str {
        match self {
            Decision::Install => "install",
            Decision::Keep => "keep",
            Decision::Blocked => "blocked",
        }
    }
}

/// Why there is no decision.
#[derive(Clone, Copy, PartialEq, Eq, Hash, Debug)]
pub enum Undecided {
    /// The sheet is none, or its table is not sound; [`sheet_fault`](crate::sheet_fault) says why.
    Sheet,
    /// The installed version is none, or its table is not sound; [`installed_fault`](crate::installed_fault) says why.
    /// This is tested first.
    Installed,
}

impl Undecided {
    /// Its number: [`Number::BadSheet`] or [`Number::BadInst`].
    pub fn number(self) -> Number {
        match self {
            Undecided::Sheet => Number::BadSheet,
            Undecided::Installed => Number::BadInst,
        }
    }
}

impl fmt::Display for Undecided {
    fn fmt(&self, out: &mut fmt::Formatter) -> fmt::Result {
        self.number().fmt(out)
    }
}

impl Error for Undecided {}

/// Whether to install what a sheet names over what is installed.
///
/// A sheet is an object with exactly the keys `version`, `floor` and `image`, in any order: the first two arrays of 1 to
/// [`PLACES`](crate::PLACES) integers not below zero, of any length, the last bytes of length [`IMAGE`](crate::IMAGE). An
/// installed version is such an array. Versions compare place by place as numbers, and missing places count as zero. It is
/// proved that no decision installs a version that is not above the one installed, whatever the two tables hold.
///
/// ```
/// use yay::{decide, Decision, Document, Undecided};
/// let image = "image: <9f86d081884c7d659a2feaa0c55ad015a3bf4f1b2b0b822cd15d6c15b0f00a08>\n";
/// let sheet = Document::read(format!("version: [10]\nfloor: [9, 5]\n{image}").as_bytes())?;
/// for (installed, decided) in [
///     ("[9, 5]\n", Ok(Decision::Install)),
///     ("[10, 0]\n", Ok(Decision::Keep)),
///     ("[9, 4]\n", Ok(Decision::Blocked)),
///     ("[-9]\n", Err(Undecided::Installed)),
/// ] {
///     assert_eq!(decide(&sheet.tree(), &Document::read(installed.as_bytes())?.tree()), decided);
/// }
/// # Ok::<(), Box<dyn std::error::Error>>(())
/// ```
pub fn decide(sheet: &Tree, installed: &Tree) -> Result<Decision, Undecided> {
    match sys::decide(sheet.lent(), installed.lent()) {
        // Another decision would be a broken library, as another number would.
        (0, code) => Ok(Decision::from_code(code).expect("libyay gives the decisions of yay.h alone")),
        (code, _) => match Number::given(code) {
            Number::BadInst => Err(Undecided::Installed),
            _ => Err(Undecided::Sheet),
        },
    }
}

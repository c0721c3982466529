//! Release sheets and installed versions to try the upgrade decision on: random ones and near ones, as trees and as people
//! write them, wrong ones one step away from a right one, and damaged ones.

pub mod borders;
pub(crate) mod damaged;
pub(crate) mod shapes;
pub mod stream;
pub mod versions;
mod written;
mod wrong;

use crate::second::decide::Decided;
use crate::tables::Table;

/// Where a pair comes from.
#[derive(Clone, Copy, PartialEq, Eq, Debug)]
pub enum Source {
    Border,
    Near,
    Random,
    Long,
    Written,
    WrongSheet,
    WrongInstalled,
    BothWrong,
    DamagedSheet,
    DamagedInstalled,
    BothDamaged,
}

/// What the sources are called, in their order.
pub const SOURCES: [&str; 11] = [
    "borders",
    "near versions",
    "random versions",
    "numbers of about 1,000 digits",
    "as people write them",
    "wrong sheets",
    "wrong installed versions",
    "both wrong",
    "damaged sheets",
    "damaged installed versions",
    "both damaged",
];

/// A sheet and an installed version.
#[derive(Clone, Debug)]
pub struct Pair {
    pub sheet: Table,
    pub installed: Table,
    pub source: Source,
    /// The answer, where it is known from how the pair was made.
    pub known: Option<Decided>,
}

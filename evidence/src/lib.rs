//! Evidence at scale: a second reader and writer of YAY documents, a second decision on upgrades, a second overlay and a
//! second stored form, a slow checker of refusal places, documents, tables, sheets, overlays and stored forms to try, and
//! the comparison with what is under test.

pub mod clock;
pub mod compare;
pub mod documents;
#[cfg(feature = "proved")]
pub mod figures;
pub mod hex;
pub mod overlays;
#[cfg(feature = "proved")]
pub mod proved;
pub mod second;
pub mod sheets;
pub mod slow;
pub mod stored;
pub mod tables;
pub mod vectors;

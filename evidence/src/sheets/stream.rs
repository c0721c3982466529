//! The pairs of a run, in an order fixed by the seed, without end.

use super::damaged::Damaged;
use super::versions::{self, known, Version};
use super::{shapes, written, wrong, Pair, Source};
use crate::documents::Rng;
use crate::second::decide::{BADINST, BADSHEET};
use crate::second::Second;
use crate::tables::trees::Node;
use crate::tables::Table;

pub struct Stream {
    rng: Rng,
    second: Second,
    sheets: Damaged,
    installed: Damaged,
}

/// A sheet's version and floor, and what is installed.
struct Versions {
    version: Version,
    floor: Version,
    installed: Version,
}

impl Versions {
    /// Each is near one of the others.
    fn near(rng: &mut Rng, installed: Version) -> Versions {
        let version = versions::near(rng, &installed);
        let beside = if rng.once_in(2) { &version } else { &installed };
        let floor = versions::near(rng, beside);
        Versions { version, floor, installed }
    }

    fn random(rng: &mut Rng) -> Versions {
        let [version, floor, installed] = [(); 3].map(|()| versions::random(rng));
        Versions { version, floor, installed }
    }

    fn tables(&self, rng: &mut Rng) -> (Table, Table) {
        let sheet = Node::Object(shapes::sheet(rng, &self.version, &self.floor));
        let installed = Node::Array(shapes::array(&self.installed));
        (shapes::table(rng, &sheet), shapes::table(rng, &installed))
    }

    fn pair(&self, rng: &mut Rng, source: Source) -> Pair {
        let (sheet, installed) = self.tables(rng);
        Pair { sheet, installed, source, known: known(&self.version, &self.floor, &self.installed).map(Ok) }
    }
}

/// Versions as most people have them, near each other.
fn few(rng: &mut Rng) -> Versions {
    let installed = versions::random(rng);
    Versions::near(rng, installed)
}

impl Stream {
    pub fn new(seed: u64) -> Stream {
        let (sheets, installed) = (Damaged::default(), Damaged::default());
        Stream { rng: Rng::new(seed), second: Second::new(), sheets, installed }
    }

    pub fn pair(&mut self) -> Pair {
        let rng = &mut self.rng;
        match rng.below(200) {
            0..=69 => few(rng).pair(rng, Source::Near),
            70..=99 => Versions::random(rng).pair(rng, Source::Random),
            100 => {
                let installed = versions::long(rng);
                Versions::near(rng, installed).pair(rng, Source::Long)
            }
            101..=119 => self.written(),
            120..=143 => wrong_pair(rng, true, false),
            144..=161 => wrong_pair(rng, false, true),
            162..=165 => wrong_pair(rng, true, true),
            166..=189 => self.damaged(Source::DamagedSheet),
            190..=197 => self.damaged(Source::DamagedInstalled),
            _ => self.damaged(Source::BothDamaged),
        }
    }

    /// What both documents give.
    fn written(&mut self) -> Pair {
        let rng = &mut self.rng;
        let versions = if rng.once_in(4) { Versions::random(rng) } else { few(rng) };
        let image = shapes::image(rng, shapes::IMAGE);
        let sheet = written::sheet(rng, &versions.version, &versions.floor, &image);
        let installed = written::installed(rng, &versions.installed);
        let known = known(&versions.version, &versions.floor, &versions.installed).map(Ok);
        let [sheet, installed] = [sheet, installed].map(|doc| self.read(&doc));
        Pair { sheet, installed, source: Source::Written, known }
    }

    fn read(&mut self, doc: &str) -> Table {
        let given = self.second.given(doc.as_bytes());
        given.unwrap_or_else(|no| panic!("{no:?}: {doc}")).into()
    }

    fn damaged(&mut self, source: Source) -> Pair {
        let rng = &mut self.rng;
        let (mut sheet, mut installed) = few(rng).tables(rng);
        if source != Source::DamagedInstalled {
            (sheet, installed) = self.sheets.next(rng, |rng| few(rng).tables(rng));
        }
        if source != Source::DamagedSheet {
            let swapped = |rng: &mut Rng| {
                let (sheet, installed) = few(rng).tables(rng);
                (installed, sheet)
            };
            let (damaged, beside) = self.installed.next(rng, swapped);
            installed = damaged;
            if source == Source::DamagedInstalled {
                sheet = beside;
            }
        }
        Pair { sheet, installed, source, known: None }
    }
}

/// A pair with one side wrong, or both.
fn wrong_pair(rng: &mut Rng, sheet: bool, installed: bool) -> Pair {
    let versions = few(rng);
    let (mut one, mut other) = versions.tables(rng);
    if sheet {
        let pairs = shapes::sheet(rng, &versions.version, &versions.floor);
        let node = wrong::sheet(rng, pairs, &versions.version);
        one = shapes::table(rng, &node);
    }
    if installed {
        let node = wrong::installed(rng, &versions.installed);
        other = shapes::table(rng, &node);
    }
    let (source, number) = match (sheet, installed) {
        (true, true) => (Source::BothWrong, BADINST),
        (true, false) => (Source::WrongSheet, BADSHEET),
        _ => (Source::WrongInstalled, BADINST),
    };
    Pair { sheet: one, installed: other, source, known: Some(Err(number)) }
}

//! The pairs of a run, in an order fixed by the seed, without end.

use super::made::{made, Made, Plan, FEW};
use super::{laid, Pair, Source};
use crate::documents::Rng;
use crate::second::questions::BADROW;
use crate::second::write::written;
use crate::second::{Second, NESTING};
use crate::sheets::damaged::Damaged;
use crate::sheets::shapes::table;
use crate::tables::trees::{plain, Node};
use crate::tables::Table;

pub struct Stream {
    rng: Rng,
    second: Second,
    lower: Damaged,
    upper: Damaged,
}

/// Two tables, made or made to clash.
fn tables(rng: &mut Rng) -> (Table, Table) {
    let clash = rng.once_in(3);
    let made = made(rng, Plan { clash, ..FEW });
    (table(rng, &Node::Object(made.lower)), table(rng, &Node::Object(made.upper)))
}

fn swapped(rng: &mut Rng) -> (Table, Table) {
    let (lower, upper) = tables(rng);
    (upper, lower)
}

impl Stream {
    pub fn new(seed: u64) -> Stream {
        Stream { rng: Rng::new(seed), second: Second::new(), lower: Damaged::default(), upper: Damaged::default() }
    }

    pub fn pair(&mut self) -> Pair {
        let rng = &mut self.rng;
        match rng.below(200) {
            0..=59 => of(rng, FEW, Source::Made),
            60..=89 => of(rng, Plan { clash: true, ..FEW }, Source::Clashing),
            90..=104 => self.written(),
            105..=114 => {
                let clash = rng.once_in(8);
                of(rng, Plan { keys: 4, size: 80, levels: NESTING, clash, apart: false, deep: true }, Source::Deep)
            }
            115 => wide(rng),
            116..=125 => of(rng, Plan { apart: true, ..FEW }, Source::Apart),
            126..=135 => same(rng),
            136..=145 => wrong_root(rng),
            146..=169 => self.damaged(Source::DamagedLower),
            170..=193 => self.damaged(Source::DamagedUpper),
            _ => self.damaged(Source::BothDamaged),
        }
    }

    /// What both documents give, in the house style.
    fn written(&mut self) -> Pair {
        let clash = self.rng.once_in(8);
        let mut pair = of(&mut self.rng, Plan { clash, ..FEW }, Source::Written);
        pair.lower = self.read_back(&pair.lower);
        pair.upper = pair.upper.map(|upper| self.read_back(&upper));
        pair
    }

    fn read_back(&mut self, table: &Table) -> Table {
        let doc = written(&table.lent()).expect("a short document");
        self.second.given(&doc).expect("a document").into()
    }

    fn damaged(&mut self, source: Source) -> Pair {
        let rng = &mut self.rng;
        let (mut lower, mut upper) = match source {
            Source::DamagedUpper => tables(rng),
            _ => self.lower.next(rng, tables),
        };
        if source != Source::DamagedLower {
            let (damaged, beside) = self.upper.next(rng, swapped);
            upper = damaged;
            if source == Source::DamagedUpper {
                lower = beside;
            }
        }
        let upper = (!rng.once_in(20)).then_some(upper);
        Pair { lower, upper, source, known: None }
    }
}

fn of(rng: &mut Rng, plan: Plan, source: Source) -> Pair {
    let Made { lower, upper, known } = made(rng, plan);
    let known = known.map(|pairs| laid(plain(&Node::Object(pairs), true)));
    let [lower, upper] = [lower, upper].map(|pairs| table(rng, &Node::Object(pairs)));
    Pair { lower, upper: Some(upper), source, known: Some(known) }
}

/// Objects of some hundred keys, and among them more than a few hold at once at every level.
fn wide(rng: &mut Rng) -> Pair {
    let keys = [17, 33, 60, 200, 700][rng.below(5)];
    let plan = Plan { keys, size: 1_500, levels: 1 + rng.below(6), clash: rng.once_in(8), apart: false, deep: true };
    of(rng, plan, Source::Wide)
}

/// A tree over itself, in one memory: itself.
fn same(rng: &mut Rng) -> Pair {
    let pairs = made(rng, FEW).lower;
    let node = Node::Object(pairs);
    let known = Some(Ok(laid(plain(&node, true))));
    Pair { lower: table(rng, &node), upper: None, source: Source::Same, known }
}

/// Roots of other kinds, on one side or on both, beside trees that clash or do not.
fn wrong_root(rng: &mut Rng) -> Pair {
    let clash = rng.once_in(3);
    let Made { lower, upper, .. } = made(rng, Plan { clash, ..FEW });
    let mut nodes = [Node::Object(lower), Node::Object(upper)];
    let wrong: [&[usize]; 3] = [&[0], &[1], &[0, 1]];
    for &i in wrong[rng.below(3)] {
        let old = std::mem::replace(&mut nodes[i], Node::Array(Vec::new()));
        nodes[i] = match rng.below(5) {
            0 => Node::Array(vec![old]),
            1 => Node::Array(Vec::new()),
            2 => Node::Leaf(1 + rng.below(3) as u32, Vec::new()),
            3 => Node::Leaf(6, b"{}".to_vec()),
            _ => Node::Leaf(4, b"9".to_vec()),
        };
    }
    let [lower, upper] = nodes.map(|node| table(rng, &node));
    Pair { lower, upper: Some(upper), source: Source::WrongRoot, known: Some(Err(BADROW)) }
}

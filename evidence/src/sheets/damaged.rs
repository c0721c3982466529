//! A right pair with one side damaged, in every word and every byte of text, one way after another.

use crate::documents::Rng;
use crate::tables::damage::Damage;
use crate::tables::Table;

/// The damaged forms of a table, beside one that stays right.
#[derive(Default)]
pub struct Damaged {
    now: Option<(Damage, Table)>,
}

impl Damaged {
    /// The next damaged form and what stands beside it; `make` gives a new pair when all forms were had.
    pub fn next(&mut self, rng: &mut Rng, make: impl Fn(&mut Rng) -> (Table, Table)) -> (Table, Table) {
        loop {
            if let Some((damage, beside)) = &mut self.now {
                if let Some(table) = damage.next(rng) {
                    return (table, beside.clone());
                }
            }
            let (good, beside) = make(rng);
            self.now = Some((Damage::new(good), beside));
        }
    }
}

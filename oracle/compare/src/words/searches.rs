//! Words of searches and generators.

use super::Words;
use crate::data::Sheets;
use yilgashe_sys::TeamComposition;

impl Words {
    pub fn teams(&mut self, sizes: &TeamComposition) {
        self.number(sizes.a as u64);
        self.number(sizes.b as u64);
    }

    /// Their lengths alone: what stands on stored sheets beforehand is fixed.
    pub fn sheets(&mut self, sheets: &Sheets) {
        self.number(sheets.players.len() as u64);
        self.number(sheets.qualities.len() as u64);
    }

    /// The players of `count` matches, then their qualities.
    pub fn formed(&mut self, sizes: &TeamComposition, (count, after): &(usize, Sheets)) {
        let seats = if *count > 0 { sizes.a + sizes.b } else { 0 };
        self.list(after.players[..count * seats].iter().copied());
        self.number(*count as u64);
        let qualities = after.qualities[..*count].iter();
        qualities.for_each(|&quality| self.value(quality));
    }
}

//! The sheets that searches and generators write to.

use std::fmt::{Debug, Formatter, Result};

/// Places for players and places for qualities.
#[derive(Clone, Default)]
pub struct Sheets {
    pub players: Vec<u64>,
    pub qualities: Vec<f64>,
}

/// So many places of a sheet are printed.
const SHOWN: usize = 400;

/// A sheet a line, with its length.
impl Debug for Sheets {
    fn fmt(&self, f: &mut Formatter<'_>) -> Result {
        write!(f, "sheets")?;
        sheet(f, "players", &self.players)?;
        sheet(f, "qualities", &self.qualities)
    }
}

fn sheet<T: Debug>(f: &mut Formatter<'_>, name: &str, sheet: &[T]) -> Result {
    let shown = &sheet[..sheet.len().min(SHOWN)];
    write!(f, "\n      {:3} {name}: {shown:?}", sheet.len())
}

//! A programme as the yardstick keeps it: the table's numbers, and those products of them that every loss needs.

use super::layers::Layer;
use super::treaties::Treaty;
use crate::calculation;

pub const MOST_LAYERS: usize = 8;
/// Treaties stand at their number; 0 is the number of no treaty.
pub const NUMBERS: usize = 9;
pub const WHOLE: u64 = 10_000;

#[derive(Default)]
pub struct Programme {
    pub treaties: [Treaty; NUMBERS],
    risk: [Layer; MOST_LAYERS],
    risk_count: usize,
    cat: [Layer; MOST_LAYERS],
    cat_count: usize,
    /// Whether a layer has `(time)`.
    pub has_timed: bool,
}

impl Programme {
    /// A programme from a table that the second calculation has read.
    pub fn new(table: &calculation::Programme) -> Programme {
        let has_timed = table.risk.iter().chain(&table.cat).any(|layer| layer.is_timed);
        let mut programme =
            Programme { risk_count: table.risk.len(), cat_count: table.cat.len(), has_timed, ..Programme::default() };
        for treaty in &table.treaties {
            programme.treaties[treaty.number as usize] = Treaty::new(treaty);
        }
        for (ours, layer) in programme.risk.iter_mut().zip(&table.risk) {
            *ours = Layer::new(layer);
        }
        for (ours, layer) in programme.cat.iter_mut().zip(&table.cat) {
            *ours = Layer::new(layer);
        }
        programme
    }

    pub fn risk(&self) -> &[Layer] {
        &self.risk[..self.risk_count]
    }

    pub fn cat(&self) -> &[Layer] {
        &self.cat[..self.cat_count]
    }

    /// The numbers of the treaties, rising.
    pub fn numbers(&self) -> impl Iterator<Item = usize> + '_ {
        (1..NUMBERS).filter(|number| !self.treaties[*number].is_none())
    }
}

/// The share of an amount to the nearest cent, halves up, after the whole product. Most products fit into 64 bits,
/// every quotient does.
pub fn part(amount: u64, share: u64, whole: u64) -> u64 {
    match amount.checked_mul(share) {
        Some(product) => product / whole + u64::from(product % whole >= whole.div_ceil(2)),
        None => wide_part(amount, share, whole),
    }
}

#[inline(never)]
fn wide_part(amount: u64, share: u64, whole: u64) -> u64 {
    ((u128::from(amount) * u128::from(share) + u128::from(whole / 2)) / u128::from(whole)) as u64
}

/// The same for a share in basis points, where the product always fits.
pub fn basis_points(amount: u64, share: u64) -> u64 {
    (amount * share + WHOLE / 2) / WHOLE
}

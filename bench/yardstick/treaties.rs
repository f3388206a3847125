//! Proportional treaties: what is ceded of a loss.

use super::programme::{basis_points, part, WHOLE};
use super::reader::Loss;
use crate::calculation::table;

#[derive(Default)]
enum Terms {
    #[default]
    None,
    /// `share` is the product of cede and capacity.
    Quota { cede: u64, capacity: u64, share: u64 },
    /// `most` is all lines of the retention, and `end` these and the retention itself.
    Surplus { retention: u64, most: u64, end: u64 },
}

/// Terms without a limit or a capacity have the largest number there.
#[derive(Default)]
pub struct Treaty {
    terms: Terms,
    limit: u64,
}

fn or_unlimited(limit: u64) -> u64 {
    match limit {
        0 => u64::MAX,
        limit => limit,
    }
}

impl Treaty {
    pub fn new(treaty: &table::Treaty) -> Treaty {
        let terms = match treaty.terms {
            table::Terms::Quota { cede, capacity } => {
                Terms::Quota { cede, capacity: or_unlimited(capacity), share: cede * capacity }
            }
            table::Terms::Surplus { retention, lines } => {
                Terms::Surplus { retention, most: lines * retention, end: retention * (1 + lines) }
            }
        };
        Treaty { terms, limit: or_unlimited(treaty.event_limit) }
    }

    pub fn is_none(&self) -> bool {
        matches!(self.terms, Terms::None)
    }

    /// What is ceded of a loss when the treaty took so much of earlier ones in the event.
    #[inline(always)]
    pub fn ceded(&self, loss: &Loss, taken: u64) -> u64 {
        let Loss { amount, maximum, .. } = *loss;
        let unlimited = match self.terms {
            Terms::None => 0,
            Terms::Quota { cede, capacity, .. } if maximum <= capacity => basis_points(amount, cede),
            Terms::Quota { share, .. } => part(amount, share, WHOLE * maximum),
            Terms::Surplus { retention, .. } if maximum <= retention => 0,
            Terms::Surplus { most, end, .. } if maximum > end => part(amount, most, maximum),
            Terms::Surplus { retention, .. } => part(amount, maximum - retention, maximum),
        };
        unlimited.min(self.limit.saturating_sub(taken))
    }
}

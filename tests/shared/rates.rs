//! How far layers use their reinstatements, and at which rates, by the second calculation.

use crate::calculation::table::{Layer, Programme, LARGEST_RATE, MOST_RATES};
use crate::totals::numbers;
use std::collections::BTreeSet;

/// Where the used amount ends: in the first slice, in a later one, at the end of one, or past the last.
const ENDS: [&str; 4] = ["in the first slice", "in a later slice", "at the end of a slice", "past the last slice"];

/// The rate of a slice that is above 0.
const RATES: [&str; 4] = ["at 0", "at 1", "at the largest rate", "at another rate"];

/// The rates of the slices that are above 0, where there are two slices or more; the last are twenty.
const LISTS: [&str; 4] = ["equal rates", "different rates", "free, then charged", "twenty different rates"];

/// How often layers came to each of these; those without premium, placed share, reinstatement or used amount are left
/// out.
#[derive(Default)]
pub struct Rates {
    ends: [usize; ENDS.len()],
    rates: [usize; RATES.len()],
    lists: [usize; LISTS.len()],
}

impl Rates {
    /// Counts the layers in the statement of a text that was accepted.
    pub fn count(&mut self, programme: &Programme, statement: &[u8]) {
        let statement = String::from_utf8_lossy(statement);
        let lines = statement.lines().filter(|line| line.starts_with("(layer"));
        for (layer, line) in programme.risk.iter().chain(&programme.cat).zip(lines) {
            let used = layer.cap() - layer.deductible - numbers(line)[2];
            if layer.premium > 0 && layer.placed > 0 && layer.reinstatements() > 0 && used > 0 {
                self.count_end(layer, used);
                self.count_rates(layer, used);
            }
        }
    }

    fn count_end(&mut self, layer: &Layer, used: u64) {
        let end = if used > layer.limit * layer.reinstatements() {
            3
        } else if used % layer.limit == 0 {
            2
        } else {
            usize::from(used > layer.limit)
        };
        self.ends[end] += 1;
    }

    fn count_rates(&mut self, layer: &Layer, used: u64) {
        let slices = layer.slices(used).filter(|(slice, _)| *slice > 0);
        let rates: Vec<u64> = slices.map(|(_, rate)| rate).collect();
        for rate in &rates {
            let place = match *rate {
                0 | 1 => *rate as usize,
                LARGEST_RATE => 2,
                _ => 3,
            };
            self.rates[place] += 1;
        }
        let different = rates.iter().collect::<BTreeSet<&u64>>().len();
        self.lists[0] += usize::from(rates.len() > 1 && different == 1);
        self.lists[1] += usize::from(different > 1);
        self.lists[2] += usize::from(different > 1 && rates[0] == 0);
        self.lists[3] += usize::from(different == MOST_RATES);
    }

    /// What can be met, with its count.
    fn counts(&self) -> impl Iterator<Item = (&'static str, usize)> + '_ {
        let names = ENDS.iter().chain(&RATES).chain(&LISTS);
        let counts = self.ends.iter().chain(&self.rates).chain(&self.lists);
        names.zip(counts).map(|(name, count)| (*name, *count))
    }

    /// What can be met and was not.
    pub fn unmet(&self) -> impl Iterator<Item = &'static str> + '_ {
        self.counts().filter(|(_, count)| *count == 0).map(|(name, _)| name)
    }

    /// The counts in a line.
    pub fn shown(&self) -> String {
        let counts = self.counts().map(|(name, count)| format!("{name} {count}"));
        format!("reinstated: {}", counts.collect::<Vec<String>>().join(", "))
    }
}

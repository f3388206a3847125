//! How amounts lie between cents before they are rounded, by the second calculation's formulas.

use crate::calculation::events::{read_events, Loss};
use crate::calculation::exact::Exact;
use crate::calculation::table::{Layer, Programme, Terms};
use crate::calculation::Charges;
use crate::totals::numbers;
use std::cmp::Ordering;

const FORMULAS: [&str; 7] = [
    "quota share",
    "quota share by capacity",
    "surplus",
    "surplus by lines",
    "placed share",
    "premium",
    "premium by time",
];

/// The places of the layers' formulas; `of_treaty` gives those of the treaties'.
const PLACED_SHARE: usize = 4;
const PREMIUM: usize = 5;
const BY_TIME: usize = 6;

/// Whole cents, less than half a cent more, a half, or more than that.
const WAYS: [&str; 4] = ["whole", "below a half", "a half", "above a half"];

/// How often each formula came to each of these; amounts of 0 are left out.
#[derive(Default)]
pub struct Roundings([[usize; WAYS.len()]; FORMULAS.len()]);

impl Roundings {
    /// Counts the cessions of a text that was accepted, without event limits, the year's figures of the layers in its
    /// statement, and what its losses are charged by time.
    pub fn count(&mut self, programme: &Programme, events: &[u8], statement: &[u8], charges: &[Charges]) {
        for event in read_events(programme, 0, events).unwrap_or_default() {
            for loss in &event.losses {
                let Some(place) = programme.treaty(loss.treaty) else { continue };
                let treaty = &programme.treaties[place];
                self.add(of_treaty(&treaty.terms, loss), &treaty.exactly_offered(loss));
            }
        }
        let statement = String::from_utf8_lossy(statement);
        let lines = statement.lines().filter(|line| line.starts_with("(layer"));
        for (layer, line) in programme.risk.iter().chain(&programme.cat).zip(lines) {
            self.count_layer(layer, numbers(line)[2]);
        }
        for Charges { layer, share, amount_premiums, .. } in charges {
            for amount_premium in amount_premiums {
                self.add(BY_TIME, &layer.exactly_due(*amount_premium, *share));
            }
        }
    }

    fn count_layer(&mut self, layer: &Layer, cover: u64) {
        let used = layer.cap() - layer.deductible - cover;
        self.add(PLACED_SHARE, &layer.at_placed_share(used));
        self.add(PREMIUM, &layer.exact_premium(used));
    }

    fn add(&mut self, formula: usize, amount: &Exact) {
        let past = amount.parts % amount.in_a_cent;
        let way = match (2 * past).cmp(&amount.in_a_cent) {
            _ if past == 0 => 0,
            Ordering::Less => 1,
            Ordering::Equal => 2,
            Ordering::Greater => 3,
        };
        self.0[formula][way] += usize::from(amount.parts > 0);
    }

    /// What can be met, with its count.
    pub fn counts(&self) -> impl Iterator<Item = (String, usize)> + '_ {
        FORMULAS.iter().zip(&self.0).flat_map(|(formula, counts)| {
            WAYS.iter().zip(counts).map(move |(way, count)| (format!("{formula}, {way}"), *count))
        })
    }

    /// The counts in a line.
    pub fn shown(&self) -> String {
        let counts = FORMULAS.iter().zip(&self.0).map(|(formula, counts)| format!("{formula} {counts:?}"));
        format!("{}: {}", WAYS.join(", "), counts.collect::<Vec<String>>().join(", "))
    }
}

/// The place among the formulas of a loss of a treaty with these terms.
fn of_treaty(terms: &Terms, loss: &Loss) -> usize {
    match *terms {
        Terms::Quota { capacity, .. } => usize::from(capacity > 0 && loss.maximum > capacity),
        Terms::Surplus { retention, lines } => 2 + usize::from(loss.maximum > retention * (1 + lines)),
    }
}

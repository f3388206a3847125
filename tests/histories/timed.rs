//! Times and timed premiums that runs were lent, and what was charged by time over several runs.

use crate::calculation::table::Layer;
use crate::calculation::{take_over, Spent};
use crate::ledger::Ledger;
use crate::raw::{Layers, Programme, Standing};
use crate::records;
use crate::runs::Run;

/// A time that makes a programme one that no text reads to: refusal 6.
const TIMES: [&str; 2] = ["above 1", "in an unused place"];

/// A timed premium that makes a standing one that is not of its programme: refusal 8.
const PREMIUMS: [&str; 3] = ["one above the amount premium", "on a layer without (time)", "on a missing layer"];

/// For a hundred histories, how many runs are refused in each of these ways, and how many are accepted with a timed
/// premium that is not the history's.
const LEAST_RUNS: usize = 1;

/// Of a hundred histories, how many have a layer that two runs charge by time, and how many a refused run between
/// them.
const LEAST_HISTORIES: usize = 8;

#[derive(Default)]
pub struct Timed {
    times: [usize; TIMES.len()],
    premiums: [usize; PREMIUMS.len()],
    others: usize,
    again: usize,
    after_refusal: usize,
    under_way: History,
}

/// A history under way: for each layer that a run has charged by time, how many runs were refused since.
#[derive(Default)]
struct History {
    refused: [Option<usize>; 16],
    charges_again: bool,
    charges_after_refusal: bool,
}

/// Which of these a time of a tier is, if one.
fn wrong_time(tier: &Layers) -> Option<usize> {
    let (used, unused) = tier.places.split_at_checked(tier.count)?;
    if used.iter().any(|terms| terms.time > 1) {
        return Some(0);
    }
    unused.iter().any(|terms| terms.time > 0).then_some(1)
}

/// Which of these a timed premium is, if one.
fn wrong_premium(layer: Option<&Layer>, spent: u64, timed: u64) -> Option<usize> {
    match layer {
        None => (timed > 0).then_some(2),
        Some(layer) if !layer.is_timed => (timed > 0).then_some(1),
        Some(layer) => (timed == layer.most_timed(u128::from(spent)) + 1).then_some(0),
    }
}

/// Which of these a timed premium of a standing is, if one and nothing else is wrong with programme and standing.
fn wrong_premium_of(programme: &Programme, standing: &Standing) -> Option<usize> {
    let programme = records::programme(programme)?;
    let untimed = Spent { risk_timed: [0; 8], cat_timed: [0; 8], ..records::spent(standing) };
    take_over(&programme, &untimed).ok()?;
    let Standing { risk, cat, risk_timed, cat_timed, .. } = standing;
    [(&programme.risk, risk, risk_timed), (&programme.cat, cat, cat_timed)].iter().find_map(|(tier, spent, timed)| {
        (0..8).find_map(|place| wrong_premium(tier.get(place), spent[place], timed[place]))
    })
}

fn add(counts: &mut [usize], place: Option<usize>) {
    if let Some(place) = place {
        counts[place] += 1;
    }
}

impl Timed {
    /// Counts a run that was lent the history's standing, or another in its place.
    pub fn count_run(&mut self, run: &Run, standing: &Standing, refusal: u64) {
        let lent = run.standing.as_ref().unwrap_or(standing);
        let has_others = (lent.risk_timed, lent.cat_timed) != (standing.risk_timed, standing.cat_timed);
        let tiers = [&run.programme.risk, &run.programme.cat];
        match refusal {
            0 => self.others += usize::from(has_others),
            6 => add(&mut self.times, tiers.iter().find_map(|tier| wrong_time(tier))),
            8 => add(&mut self.premiums, wrong_premium_of(&run.programme, lent)),
            _ => {}
        }
        if refusal > 0 {
            self.under_way.refused.iter_mut().flatten().for_each(|count| *count += 1);
        }
    }

    /// The layers that an accepted run charges.
    pub fn count_charged(&mut self, before: &Ledger, after: &Ledger) {
        let History { refused, charges_again, charges_after_refusal } = &mut self.under_way;
        for ((refused, before), after) in refused.iter_mut().zip(before.timed()).zip(after.timed()) {
            if before < after {
                *charges_again |= refused.is_some();
                *charges_after_refusal |= refused.is_some_and(|count| count > 0);
                *refused = Some(0);
            }
        }
    }

    pub fn count_history(&mut self) {
        let History { charges_again, charges_after_refusal, .. } = std::mem::take(&mut self.under_way);
        self.again += usize::from(charges_again);
        self.after_refusal += usize::from(charges_after_refusal);
    }

    /// What can be met, with its count, and how often it is to be met in a hundred histories.
    pub fn counts(&self) -> Vec<(String, usize, usize)> {
        let times = TIMES.iter().zip(self.times).map(|(name, count)| (format!("time {name}"), count, LEAST_RUNS));
        let premiums = PREMIUMS.iter().zip(self.premiums);
        let premiums = premiums.map(|(name, count)| (format!("timed premium {name}"), count, LEAST_RUNS));
        let mut counts: Vec<(String, usize, usize)> = times.chain(premiums).collect();
        counts.push(("another timed premium accepted".to_string(), self.others, LEAST_RUNS));
        counts.push(("a layer charged by two runs".to_string(), self.again, LEAST_HISTORIES));
        counts.push(("and with a refused one between".to_string(), self.after_refusal, LEAST_HISTORIES));
        counts
    }

    /// The counts in a line.
    pub fn shown(&self) -> String {
        let counts = self.counts().into_iter().map(|(name, count, _)| format!("{name} {count}"));
        format!("by time: {}", counts.collect::<Vec<String>>().join(", "))
    }
}

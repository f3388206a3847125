//! What the histories compared so far have reached.

use crate::aim::{bounds, BOUNDS};
use crate::dealings::Dealings;
use crate::draw::LARGEST_RATE;
use crate::feeds::Feeds;
use crate::ledger::Ledger;
use crate::limits::Limits;
use crate::raw::{Answer, Programme, Standing};
use crate::rates::Rates;
use crate::roundings::Roundings;
use crate::runs::Run;
use crate::scaled::Scaled;
use crate::timed::Timed;
use crate::times::Times;
use crate::totals::has_all;
use std::collections::BTreeMap;

/// The refusals that a run can give.
const REFUSALS: [u64; 10] = [6, 7, 8, 9, 10, 11, 12, 13, 14, 28];

/// For a hundred histories, how many runs have each refusal, and how many a buffer that just fits or is one byte
/// short.
const LEAST_RUNS: usize = 5;

/// For a hundred histories, how many runs are refused for a rate, by each fault.
const LEAST_MISRATED: usize = 1;

/// Of a hundred histories, how many have cessions, recoveries of both tiers and premium.
const LEAST_FULL: usize = 30;

/// Of a hundred histories, how many have a layer that an earlier run brought a loss and that comes to each bound.
const LEAST_REACHED: usize = 20;

/// Of a hundred histories, how many have a layer that a run brings to each bound to the cent, or one cent beside it.
const LEAST_MET: usize = 30;

/// For a hundred histories, how often an event limit is met in each way.
const LEAST_LIMITS: usize = 40;

/// For a hundred histories, how often a formula comes to whole cents, below a half, to a half and above it.
const LEAST_ROUNDINGS: usize = 1;

/// For a hundred histories, how many cuts are compared.
const LEAST_CUTS: usize = 200;

/// A rate that makes a programme one that no text reads to: too large, past the last reinstatement, or in an unused
/// place.
const MISRATED: [&str; 3] = ["too large", "past the last", "in an unused place"];

/// How many histories, for each bound.
type ByBound = [usize; BOUNDS.len()];

#[derive(Default)]
pub struct Tally {
    histories: usize,
    runs: usize,
    accepted: usize,
    refused: BTreeMap<u64, usize>,
    /// Runs accepted with a programme, a standing or a scale changed in one field.
    changed: usize,
    fitting: usize,
    one_short: usize,
    pub cuts: usize,
    full: usize,
    reached: ByBound,
    met: ByBound,
    pub limits: Limits,
    pub roundings: Roundings,
    pub rates: Rates,
    /// Runs refused with 6 for a rate, by where it stands.
    misrated: [usize; MISRATED.len()],
    pub times: Times,
    pub timed: Timed,
    pub scaled: Scaled,
    pub dealings: Dealings,
    feeds: Feeds,
    /// Of the history under way.
    reaches: [bool; BOUNDS.len()],
    meets: [bool; BOUNDS.len()],
}

/// Which of these the rates of a programme have, if one.
fn misrated(programme: &Programme) -> Option<usize> {
    let tiers = [&programme.risk, &programme.cat];
    let mut layers = tiers.iter().flat_map(|tier| tier.places.iter().enumerate().map(|(at, l)| (at < tier.count, l)));
    layers.find_map(|(is_used, terms)| {
        let count = usize::try_from(terms.reinstatements).ok().filter(|count| *count <= terms.rates.len())?;
        let (used, past) = terms.rates.split_at(count);
        let is_past = past.iter().any(|rate| *rate > 0);
        match is_used {
            false => (is_past || used.iter().any(|rate| *rate > 0)).then_some(2),
            true if is_past => Some(1),
            true => used.iter().any(|rate| *rate > LARGEST_RATE).then_some(0),
        }
    })
}

impl Tally {
    /// Counts a run of a history with this programme, whose standing is this before the run.
    pub fn count_run(&mut self, run: &Run, programme: &Programme, standing: &Standing, answer: Answer) {
        self.timed.count_run(run, standing, answer.refusal);
        let length = run.room.length() as u64;
        self.runs += 1;
        if answer.refusal == 0 {
            self.accepted += 1;
            let has_other = run.standing.is_some() || run.shares.is_some();
            self.changed += usize::from(has_other || run.programme != *programme);
            self.fitting += usize::from(answer.number == length);
        } else {
            *self.refused.entry(answer.refusal).or_default() += 1;
            if let Some(place) = misrated(&run.programme).filter(|_| answer.refusal == 6) {
                self.misrated[place] += 1;
            }
            self.one_short += usize::from(answer.refusal == 7 && answer.number == length + 1);
        }
        match answer.refusal {
            0 => self.feeds.count(&run.events, None),
            10 => self.feeds.count(&run.events, Some(answer.number as usize)),
            _ => {}
        }
    }

    /// The bounds that layers have come to in an accepted run.
    pub fn count_bounds(&mut self, before: &Ledger, after: &Ledger) {
        for ((_, before), (layer, after)) in before.layers().zip(after.layers()) {
            for (place, bound) in bounds(layer) {
                let bound = u128::from(bound);
                self.reaches[place] |= before > 0 && before < bound && bound <= after;
                self.meets[place] |= before + 1 < bound && after.abs_diff(bound) <= 1;
            }
        }
    }

    pub fn count_history(&mut self, totals: &[u64]) {
        self.histories += 1;
        self.full += usize::from(has_all(totals));
        for place in 0..BOUNDS.len() {
            self.reached[place] += usize::from(self.reaches[place]);
            self.met[place] += usize::from(self.meets[place]);
        }
        (self.reaches, self.meets) = Default::default();
        self.timed.count_history();
    }

    pub fn print(&self, seed: u64) {
        let Tally { histories, runs, accepted, changed, .. } = self;
        print!("histories: seed {seed}, {histories} compared, {runs} runs: accepted {accepted}");
        for (refusal, count) in &self.refused {
            print!(", {refusal}: {count}");
        }
        println!("; accepted with a field changed {changed}; in two runs {} cuts", self.cuts);
        print!("histories: buffers that just fit {}, one byte short {}; ", self.fitting, self.one_short);
        print!(
            "histories with cessions, both recoveries and premium {}; used up by a later run, and to a cent: ",
            self.full
        );
        let counts = BOUNDS.iter().zip(self.reached).zip(self.met);
        let counts: Vec<String> = counts.map(|((name, reached), met)| format!("{name} {reached}, {met}")).collect();
        println!("{}", counts.join("; "));
        println!("histories: {}", self.limits.shown());
        println!("histories: {}", self.roundings.shown());
        println!("histories: {}", self.rates.shown());
        let counts = MISRATED.iter().zip(self.misrated).map(|(name, count)| format!("{name} {count}"));
        println!("histories: rates refused with 6: {}", counts.collect::<Vec<String>>().join(", "));
        println!("histories: {}", self.times.shown());
        println!("histories: {}", self.timed.shown());
        println!("histories: {}", self.scaled.shown());
        println!("histories: {}", self.dealings.shown());
        println!("histories: {}", self.feeds.shown());
    }

    /// What the histories should have reached and did not.
    pub fn missing(&self) -> Vec<String> {
        let mut counts = vec![
            ("buffers that just fit".to_string(), self.fitting, LEAST_RUNS),
            ("buffers one byte short".to_string(), self.one_short, LEAST_RUNS),
            ("cuts".to_string(), self.cuts, LEAST_CUTS),
            ("histories with cessions, both recoveries and premium".to_string(), self.full, LEAST_FULL),
        ];
        let limits = self.limits.counts().into_iter();
        counts.extend(limits.map(|(name, count)| (format!("event limits met: {name}"), count, LEAST_LIMITS)));
        let roundings = self.roundings.counts();
        counts.extend(roundings.map(|(name, count)| (format!("rounded: {name}"), count, LEAST_ROUNDINGS)));
        for (name, count) in MISRATED.iter().zip(self.misrated) {
            counts.push((format!("runs refused with 6 for a rate {name}"), count, LEAST_MISRATED));
        }
        let timed = self.timed.counts().into_iter();
        counts.extend(timed.map(|(name, count, least)| (format!("by time: {name}"), count, least)));
        let scaled = self.scaled.counts().into_iter();
        counts.extend(scaled.map(|(name, count, least)| (format!("scales: {name}"), count, least)));
        let dealings = self.dealings.counts().into_iter();
        counts.extend(dealings.map(|(name, count, least)| (format!("lists dealt twice: {name}"), count, least)));
        for refusal in REFUSALS {
            let count = self.refused.get(&refusal).copied().unwrap_or(0);
            counts.push((format!("runs refused with {refusal}"), count, LEAST_RUNS));
        }
        for (place, name) in BOUNDS.iter().enumerate() {
            counts.push((format!("{name} used up by a later run"), self.reached[place], LEAST_REACHED));
            counts.push((format!("{name} used up to a cent"), self.met[place], LEAST_MET));
        }
        let too_few = counts.into_iter().filter(|(_, count, least)| count * 100 < self.histories * least);
        let too_few = too_few.map(|(name, count, least)| format!("{name}: {count}, not {least} for a hundred histories"));
        let too_few = too_few.chain(self.rates.unmet().map(|name| format!("reinstated: none met: {name}")));
        let too_few = too_few.chain(self.times.unmet().map(|name| format!("charged by time: none met: {name}")));
        too_few.chain(self.feeds.unmet().map(|name| format!("line feeds: none met: {name}"))).collect()
    }
}

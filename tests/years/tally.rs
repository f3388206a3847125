//! What the years compared so far have reached.

use crate::calculation::time::Scale;
use crate::calculation::{charges, read_table, Standing};
use crate::feeds::Feeds;
use crate::limits::Limits;
use crate::rates::Rates;
use crate::roundings::Roundings;
use crate::table_damage::{kind_of, misrated, mistimed, MISPLACED, MISRATED, MISTIMED};
use crate::times::Times;
use crate::totals::{has_all, numbers, totals};
use std::collections::BTreeMap;

/// The refusals that the program can show.
const REFUSALS: [u64; 13] = [0, 1, 2, 3, 4, 5, 7, 9, 10, 11, 12, 13, 14];

/// Of a hundred years, how many have cessions, recoveries of both tiers and premium.
const LEAST_FULL_YEARS: usize = 36;

/// For a hundred years, how often an event limit is met in each way.
const LEAST_LIMITS: usize = 10;

/// For a hundred years, how often a formula comes to whole cents, below a half, to a half and above it.
const LEAST_ROUNDINGS: usize = 1;

#[derive(Default)]
pub struct Tally {
    compared: usize,
    accepted: usize,
    refused: BTreeMap<u64, usize>,
    /// Tables refused with 4 for a line behind one of a later kind, by the pair of kinds.
    misplaced: [usize; MISPLACED.len()],
    /// Tables refused with 2 or 3 for a layer's K or rates, by what is wrong with them.
    misrated: [usize; MISRATED.len()],
    /// Tables refused with 2 for `(time)`, by what is wrong with it.
    mistimed: [usize; MISTIMED.len()],
    ceded: usize,
    risk: usize,
    cat: usize,
    premium: usize,
    all: usize,
    limits: Limits,
    roundings: Roundings,
    rates: Rates,
    times: Times,
    table_feeds: Feeds,
    events_feeds: Feeds,
}

/// The pairs of kinds in words.
fn misplaced_names() -> impl Iterator<Item = String> {
    MISPLACED.iter().map(|(kind, later)| format!("{kind:?} after {later:?}").to_lowercase())
}

/// The line of a text, counted from 1.
fn line_at(text: &[u8], line: u64) -> Option<&[u8]> {
    text.split(|byte| *byte == b'\n').nth((line as usize).checked_sub(1)?)
}

impl Tally {
    pub fn count(&mut self, table: Option<&[u8]>, events: &[u8], printed: &[u8]) {
        self.compared += 1;
        let table = table.unwrap_or_default();
        let Some(amounts) = totals(printed) else {
            return self.count_refusal(table, events, printed);
        };
        self.table_feeds.count(table, None);
        self.events_feeds.count(events, None);
        if let Ok(programme) = read_table(table) {
            let scale = Scale::built_in();
            let charges = charges(&programme, &Standing::default(), &scale, events);
            self.limits.count(&programme, events);
            self.roundings.count(&programme, events, printed, &charges);
            self.rates.count(&programme, printed);
            self.times.count(&charges);
        }
        self.accepted += 1;
        self.ceded += usize::from(amounts[1] > 0);
        self.risk += usize::from(amounts[2] > 0);
        self.cat += usize::from(amounts[3] > 0);
        self.premium += usize::from(amounts[5] > 0);
        self.all += usize::from(has_all(&amounts));
    }

    fn count_refusal(&mut self, table: &[u8], events: &[u8], printed: &[u8]) {
        let answer = numbers(&String::from_utf8_lossy(printed));
        let [refusal, second] = answer[..] else { return };
        *self.refused.entry(refusal).or_default() += 1;
        if let Some(wrong) = line_at(table, second).and_then(|line| misrated(line, refusal)) {
            self.misrated[wrong] += 1;
        }
        match refusal {
            2 => {
                self.table_feeds.count(table, Some(second as usize));
                if let Some(wrong) = line_at(table, second).and_then(mistimed) {
                    self.mistimed[wrong] += 1;
                }
            }
            4 => self.count_misplaced(table, second as usize),
            10 => self.events_feeds.count(events, Some(second as usize)),
            _ => {}
        }
    }

    /// The line at fault, counted from 1, is never the first.
    fn count_misplaced(&mut self, table: &[u8], line: usize) {
        let mut kinds = table.split(|byte| *byte == b'\n').map(kind_of).skip(line - 2);
        let (before, found) = (kinds.next().flatten(), kinds.next().flatten());
        for (count, (kind, later)) in self.misplaced.iter_mut().zip(MISPLACED) {
            *count += usize::from(found == Some(kind) && before == Some(later));
        }
    }

    pub fn print(&self, seed: u64) {
        print!("years: seed {seed}, {} compared: accepted {}", self.compared, self.accepted);
        for (refusal, count) in &self.refused {
            print!(", {refusal}: {count}");
        }
        print!("; above 0: ceded {}, risk {}, cat {}, premium {}", self.ceded, self.risk, self.cat, self.premium);
        println!(", all four {}", self.all);
        let counts = misplaced_names().zip(self.misplaced).map(|(name, count)| format!("{name} {count}"));
        println!("years: out of order: {}", counts.collect::<Vec<String>>().join(", "));
        let counts = MISRATED.iter().zip(self.misrated).map(|((name, _), count)| format!("{name} {count}"));
        println!("years: refused rates: {}", counts.collect::<Vec<String>>().join(", "));
        let counts = MISTIMED.iter().zip(self.mistimed).map(|(name, count)| format!("{name} {count}"));
        println!("years: refused times: {}", counts.collect::<Vec<String>>().join(", "));
        println!("years: {}", self.limits.shown());
        println!("years: {}", self.roundings.shown());
        println!("years: {}", self.rates.shown());
        println!("years: {}", self.times.shown());
        println!("years: tables: {}", self.table_feeds.shown());
        println!("years: events: {}", self.events_feeds.shown());
    }

    /// What the years should have reached and did not.
    pub fn missing(&self) -> Vec<String> {
        let unseen = REFUSALS.iter().filter(|refusal| !self.refused.contains_key(refusal));
        let mut missing: Vec<String> = unseen.map(|refusal| format!("no year refused with {refusal}")).collect();
        let unplaced = misplaced_names().zip(self.misplaced).filter(|(_, count)| *count == 0);
        missing.extend(unplaced.map(|(name, _)| format!("no table with a {name}")));
        let unseen = MISRATED.iter().zip(self.misrated).filter(|(_, count)| *count == 0);
        missing.extend(unseen.map(|((name, refusal), _)| format!("no table refused with {refusal} for {name}")));
        let unseen = MISTIMED.iter().zip(self.mistimed).filter(|(_, count)| *count == 0);
        missing.extend(unseen.map(|(name, _)| format!("no table refused with 2 for (time): {name}")));
        let limits = self.limits.counts().into_iter();
        let too_few = limits.filter(|(_, count)| count * 100 < self.compared * LEAST_LIMITS);
        missing.extend(too_few.map(|(name, count)| format!("event limits met: {name}: {count}, too few")));
        let too_few = self.roundings.counts().filter(|(_, count)| count * 100 < self.compared * LEAST_ROUNDINGS);
        missing.extend(too_few.map(|(name, count)| format!("rounded: {name}: {count}, too few")));
        missing.extend(self.rates.unmet().map(|name| format!("reinstated: none met: {name}")));
        missing.extend(self.times.unmet().map(|name| format!("charged by time: none met: {name}")));
        missing.extend(self.table_feeds.unmet().map(|name| format!("line feeds of tables: none met: {name}")));
        missing.extend(self.events_feeds.unmet().map(|name| format!("line feeds of events: none met: {name}")));
        if self.all * 100 < self.compared * LEAST_FULL_YEARS {
            missing.push("too few years with cessions, recoveries of both tiers and premium".to_string());
        }
        missing
    }
}

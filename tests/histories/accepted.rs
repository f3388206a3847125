//! What holds of a history's accepted runs by document 01, read from the statements that the library printed. None of
//! it follows from the statements being the second calculation's: it would show what both have wrong.

use crate::calculation::table::Layer;
use crate::ledger::Ledger;
use crate::raw::Programme;
use crate::runs::Run;
use crate::totals::{numbers, totals};

/// The accepted runs so far.
#[derive(Default)]
pub struct Accepted {
    pub totals: [u64; 6],
    gross: u64,
    /// The day of each event, and of each loss.
    days: Vec<u64>,
    last: String,
    had_another_programme: bool,
    had_another_scale: bool,
}

/// The numbers of a tier's lines: place, deductible left, cover left, recovered, premium.
pub fn tier(statement: &str, word: &str) -> Vec<Vec<u64>> {
    statement.lines().filter_map(|line| line.strip_prefix(word)).map(numbers).collect()
}

fn sum(lines: &[Vec<u64>], column: usize) -> u64 {
    lines.iter().map(|line| line[column]).sum()
}

fn equal(name: &str, found: u64, expected: u64) -> Result<(), String> {
    if found == expected {
        return Ok(());
    }
    Err(format!("of the whole history, {name}: found {found}, expected {expected}"))
}

/// What is used of a layer by a sum of losses.
fn used(layer: &Layer, sum: u128) -> u128 {
    let (deductible, cap) = (u128::from(layer.deductible), u128::from(layer.cap()));
    sum.clamp(deductible, cap) - deductible
}

/// Document 01, Layers: used × s / 10,000 of a sum of losses; document 02, Q-8: to the nearest cent, halves up.
fn recovered(layer: &Layer, used: u128) -> u128 {
    (used * u128::from(layer.placed) + 5_000) / 10_000
}

/// Document 02, Q-2: with equal rates the premium is the former one, B × q × p / (10,000 × l), where B is recovered
/// with used cut at k limits. None with rates that differ.
fn former_premium(layer: &Layer, used: u128) -> Option<u128> {
    let rate = layer.rates.first().copied().unwrap_or(0);
    let reinstated = used.min(u128::from(layer.limit) * layer.rates.len() as u128);
    let product = recovered(layer, reinstated) * u128::from(rate) * u128::from(layer.premium);
    let is_one_rate = layer.rates.iter().all(|other| *other == rate);
    is_one_rate.then_some((product + 5_000 * u128::from(layer.limit)) / (10_000 * u128::from(layer.limit)))
}

impl Accepted {
    pub fn add(&mut self, run: &Run, statement: &[u8], programme: &Programme) {
        for (total, amount) in self.totals.iter_mut().zip(totals(statement).unwrap_or_default()) {
            *total += amount;
        }
        for line in String::from_utf8_lossy(&run.events).lines().map(numbers) {
            let losses = line.iter().skip(3).step_by(3);
            self.days.extend(vec![line[0]; 1 + losses.len()]);
            self.gross += losses.sum::<u64>();
        }
        self.last = String::from_utf8_lossy(statement).into_owned();
        self.had_another_programme |= run.programme != *programme;
        self.had_another_scale |= run.shares.is_some();
    }

    /// Holds what was printed to a history under these time shares.
    pub fn check(&self, ledger: &Ledger, shares: &[u64]) -> Result<(), String> {
        if self.last.is_empty() {
            return Ok(());
        }
        let [gross, ceded, risk, cat, net, premium] = self.totals;
        equal("gross", gross, self.gross)?;
        equal("net, ceded and recoveries", net + ceded + risk + cat, gross)?;
        let (risk_lines, cat_lines) = (tier(&self.last, "(layer risk"), tier(&self.last, "(layer cat"));
        for ((layer, sum), line) in ledger.layers().zip(risk_lines.iter().chain(&cat_lines)) {
            let used = used(layer, sum);
            equal("a layer's recoveries", line[3], recovered(layer, used) as u64)?;
            if let Some(premium) = former_premium(layer, used) {
                self.check_premium(layer, line[4], premium, shares)?;
            }
        }
        if self.had_another_programme {
            return Ok(());
        }
        equal("risk recoveries", risk, sum(&risk_lines, 3))?;
        equal("cat recoveries", cat, sum(&cat_lines, 3))?;
        equal("premium", premium, sum(&risk_lines, 4) + sum(&cat_lines, 4))
    }

    /// A layer's premium where its amount premium is known. By time it is, to half a cent for each event and loss,
    /// between what it would be if all of them were on the last day and if all were on the first: shares never rise.
    fn check_premium(
        &self,
        layer: &Layer,
        found: u64,
        amount_premium: u128,
        shares: &[u64],
    ) -> Result<(), String> {
        if !layer.is_timed {
            return equal("a layer's premium at one rate", found, amount_premium as u64);
        }
        let had_another = self.had_another_programme || self.had_another_scale;
        let (Some(first), Some(last), false) = (self.days.first(), self.days.last(), had_another) else {
            return Ok(());
        };
        let share = |day: &u64| u128::from(shares[*day as usize - 1]);
        let (halves, found) = (10_000 * self.days.len() as u128, 20_000 * u128::from(found));
        let (most, least) = (2 * amount_premium * share(first), 2 * amount_premium * share(last));
        if found <= most + halves && found + halves >= least {
            return Ok(());
        }
        Err(format!("of the whole history, a premium by time: {found} is not from {least} to {most}, give {halves}"))
    }
}

//! How losses are charged by amount and time, by the second calculation.

use crate::calculation::Charges;

/// The day of a loss: the first, the last, another whose share is a whole number, and those whose share is rounded
/// down by less than a half or by more.
const DAYS: [&str; 5] = ["day 1", "day 366", "a whole share", "a share cut a little", "a share cut much"];

/// The losses of one event on a layer: one of a cat layer, one of a risk layer, or several of a risk layer; these are
/// charged what they would be as one, more or less.
const LOSSES: [&str; 5] = ["one cat loss", "one risk loss", "several as one", "several more", "several less"];

/// How often losses with an amount premium above 0 were charged in each of these ways.
#[derive(Default)]
pub struct Times {
    days: [usize; DAYS.len()],
    losses: [usize; LOSSES.len()],
}

impl Times {
    /// Counts what the events of a text bring to the layers that charge by time.
    pub fn count(&mut self, charges: &[Charges]) {
        for charges in charges.iter().filter(|charges| charges.amount_premiums.iter().any(|premium| *premium > 0)) {
            self.days[day(charges.day)] += 1;
            self.losses[losses(charges)] += 1;
        }
    }

    /// What can be met, with its count.
    fn counts(&self) -> impl Iterator<Item = (&'static str, usize)> + '_ {
        let names = DAYS.iter().chain(&LOSSES);
        names.zip(self.days.iter().chain(&self.losses)).map(|(name, count)| (*name, *count))
    }

    /// What can be met and was not.
    pub fn unmet(&self) -> impl Iterator<Item = &'static str> + '_ {
        self.counts().filter(|(_, count)| *count == 0).map(|(name, _)| name)
    }

    /// The counts in a line.
    pub fn shown(&self) -> String {
        let counts = self.counts().map(|(name, count)| format!("{name} {count}"));
        format!("charged by time: {}", counts.collect::<Vec<String>>().join(", "))
    }
}

/// The place of a day among these.
fn day(day: u64) -> usize {
    // What the division by 365 leaves.
    let left = 10_000 * (366 - day) % 365;
    match day {
        1 => 0,
        366 => 1,
        _ if left == 0 => 2,
        _ => 3 + usize::from(2 * left > 365),
    }
}

/// The place of an event's losses among these.
fn losses(charges: &Charges) -> usize {
    let Charges { layer, is_risk, share, amount_premiums, .. } = charges;
    let due = |amount_premium: u64| layer.exactly_due(amount_premium, *share).nearest();
    let each: u64 = amount_premiums.iter().map(|premium| due(*premium)).sum();
    let as_one = due(amount_premiums.iter().sum());
    match amount_premiums.iter().filter(|premium| **premium > 0).count() {
        1 => usize::from(*is_risk),
        _ if each == as_one => 2,
        _ => 3 + usize::from(each < as_one),
    }
}

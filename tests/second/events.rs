//! The events text: its form and its rules.

use super::table::{Programme, LARGEST_AMOUNT, MOST_TREATIES};
use super::words::{number, word};
use super::Refusal;

const MOST_LOSSES: usize = 64;
pub const LAST_DAY: u64 = 366;

#[derive(Clone, Debug, PartialEq, Eq, PartialOrd, Ord)]
pub struct Loss {
    pub treaty: u64,
    pub maximum: u64,
    pub amount: u64,
}

pub struct Event {
    pub day: u64,
    pub losses: Vec<Loss>,
}

/// Takes one event form with its line feed off the front.
fn event_form(rest: &mut &[u8]) -> Option<Event> {
    word(rest, b"(event ")?;
    let day = number(rest)?;
    let mut losses = Vec::new();
    while word(rest, b" (loss ").is_some() {
        let treaty = number(rest)?;
        word(rest, b" ")?;
        let maximum = number(rest)?;
        word(rest, b" ")?;
        let amount = number(rest)?;
        word(rest, b")")?;
        losses.push(Loss { treaty, maximum, amount });
    }
    word(rest, b")\n")?;
    Some(Event { day, losses })
}

impl Loss {
    fn in_range(&self) -> bool {
        self.treaty <= MOST_TREATIES
            && (1..=LARGEST_AMOUNT).contains(&self.maximum)
            && self.amount <= LARGEST_AMOUNT
    }
}

impl Event {
    /// The lowest refusal of a line that has the form.
    fn fault(&self, programme: &Programme, day_before: u64) -> Option<u64> {
        let in_table = |treaty: u64| treaty == 0 || programme.treaty(treaty).is_some();
        if !(1..=LAST_DAY).contains(&self.day) || !self.losses.iter().all(Loss::in_range) {
            Some(11)
        } else if self.losses.len() > MOST_LOSSES {
            Some(12)
        } else if self.day < day_before {
            Some(13)
        } else if !self.losses.iter().all(|loss| in_table(loss.treaty)) {
            Some(14)
        } else {
            None
        }
    }
}

/// Reads every line of an events text, or gives the first refusal.
pub fn read_events(programme: &Programme, last_day: u64, text: &[u8]) -> Result<Vec<Event>, Refusal> {
    let mut rest = text;
    let mut day = last_day;
    let mut events = Vec::new();
    while !rest.is_empty() {
        let line = events.len() as u64 + 1;
        let event = event_form(&mut rest).ok_or((10, line))?;
        if let Some(refusal) = event.fault(programme, day) {
            return Err((refusal, line));
        }
        day = event.day;
        events.push(event);
    }
    Ok(events)
}

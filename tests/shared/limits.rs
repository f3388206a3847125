//! How losses meet the event limits of their treaties, by the second calculation.

use crate::calculation::events::{read_events, Event};
use crate::calculation::table::{Programme, Terms};

/// A loss leaves something of the limit, reaches it exactly, is cut to what is left of it, or finds nothing left.
const WAYS: [&str; 4] = ["below", "to the cent", "cut", "used up"];

const KINDS: [&str; 2] = ["quota share", "surplus"];

/// How often losses of each kind of treaty met their limit in each way.
#[derive(Default)]
pub struct Limits {
    losses: [[usize; WAYS.len()]; KINDS.len()],
    /// Events in which two treaties reach their limits.
    two: usize,
    /// Events in which a treaty takes something after it had reached its limit in the event before.
    again: usize,
}

impl Limits {
    /// Counts a text that was accepted.
    pub fn count(&mut self, programme: &Programme, events: &[u8]) {
        let mut reached = vec![false; programme.treaties.len()];
        for event in read_events(programme, 0, events).unwrap_or_default() {
            let offered = self.count_losses(programme, &event);
            self.again += usize::from(reached.iter().zip(&offered).any(|(before, offered)| *before && *offered > 0));
            let treaties = programme.treaties.iter().zip(&offered);
            reached = treaties.map(|(treaty, offered)| (1..=*offered).contains(&treaty.event_limit)).collect();
            self.two += usize::from(reached.iter().filter(|is_reached| **is_reached).count() > 1);
        }
    }

    /// Gives what was offered to each treaty.
    fn count_losses(&mut self, programme: &Programme, event: &Event) -> Vec<u64> {
        let mut offered = vec![0; programme.treaties.len()];
        for loss in &event.losses {
            let Some(place) = programme.treaty(loss.treaty) else { continue };
            let treaty = &programme.treaties[place];
            let (before, part) = (offered[place], treaty.offered(loss));
            offered[place] += part;
            if treaty.event_limit > 0 && part > 0 {
                let kind = usize::from(matches!(treaty.terms, Terms::Surplus { .. }));
                self.losses[kind][way(treaty.event_limit, before, offered[place])] += 1;
            }
        }
        offered
    }

    /// What can be met, with its count.
    pub fn counts(&self) -> Vec<(String, usize)> {
        let of_kind = |(kind, counts): (&&str, &[usize; WAYS.len()])| {
            let named = |(way, count): (&&str, &usize)| (format!("{kind} {way}"), *count);
            WAYS.iter().zip(counts).map(named).collect::<Vec<(String, usize)>>()
        };
        let mut counts: Vec<(String, usize)> = KINDS.iter().zip(&self.losses).flat_map(of_kind).collect();
        counts.push(("two in one event".to_string(), self.two));
        counts.push(("whole again".to_string(), self.again));
        counts
    }

    /// The counts in a line.
    pub fn shown(&self) -> String {
        let counts = self.counts().into_iter().map(|(name, count)| format!("{name} {count}"));
        format!("event limits: {}", counts.collect::<Vec<String>>().join(", "))
    }
}

/// The place among the ways of a loss with which the offered amounts go from one sum to another.
fn way(limit: u64, before: u64, after: u64) -> usize {
    if after < limit {
        0
    } else if after == limit {
        1
    } else if before < limit {
        2
    } else {
        3
    }
}

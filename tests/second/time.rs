//! The time shares of document 02: the built-in ones of Q-4, and a client's own scale, Q-12.

use super::table::WHOLE;
use super::words::numbers;
use super::Refusal;

/// Day 1 has so many days left of the year, day 366 none.
const DAYS: u64 = 365;

const DAY: &str = "(day # #)";

/// The shares of the days 1 to 366, by which premium is charged.
#[derive(Clone, Debug, PartialEq, Eq)]
pub struct Scale(Vec<u64>);

impl Scale {
    /// The share of a day: 10,000 × (366 − D) / 365, rounded down.
    pub fn built_in() -> Scale {
        Scale((0..=DAYS).rev().map(|left| WHOLE * left / DAYS).collect())
    }

    /// The scale of these shares, if some text reads to it; if one does, the text written from them is one.
    #[allow(dead_code)] // what lends shares calls it
    pub fn of_shares(shares: &[u64]) -> Option<Scale> {
        read_scale(&write_scale(shares)).ok()
    }

    pub fn share_of(&self, day: u64) -> u64 {
        self.0[day as usize - 1]
    }

    #[allow(dead_code)] // what lends shares calls it
    pub fn shares(&self) -> &[u64] {
        &self.0
    }
}

/// The day and the share of a line without its line feed.
fn day_of(line: &[u8]) -> Option<[u64; 2]> {
    let mut rest = line;
    numbers(DAY, &mut rest).filter(|_| rest.is_empty())
}

/// Reads a scale text. Of a line past the last day nothing is looked at.
pub fn read_scale(text: &[u8]) -> Result<Scale, Refusal> {
    let mut shares: Vec<u64> = Vec::new();
    for (line, place) in text.split_inclusive(|byte| *byte == b'\n').zip(1..) {
        let on_day = |[day, share]: [u64; 2]| (place <= DAYS + 1 && day == place).then_some(share);
        let share = line.strip_suffix(b"\n").and_then(day_of).and_then(on_day).ok_or((28, place))?;
        if share > WHOLE {
            return Err((29, place));
        }
        if shares.last().is_some_and(|before| *before < share) {
            return Err((30, place));
        }
        shares.push(share);
    }
    let is_whole = shares.len() as u64 == DAYS + 1;
    is_whole.then_some(Scale(shares)).ok_or((28, 0))
}

/// Writes shares as the text of a scale.
#[allow(dead_code)] // what lends shares calls it
pub fn write_scale(shares: &[u64]) -> Vec<u8> {
    let lines = shares.iter().zip(1..).map(|(share, day)| format!("(day {day} {share})\n"));
    lines.collect::<String>().into_bytes()
}

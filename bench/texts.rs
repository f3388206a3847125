// The events texts of the benchmarks, the same in every run.
#[path = "random.rs"]
pub mod random;

use random::Random;
use std::fmt::Write;

pub const EVENTS_BYTES: usize = 65_536;
const LAST_DAY: u64 = 366;
pub const SEED: u64 = 0x9e37_79b9_7f4a_7c15;

// How the losses of a text are drawn: how many to an event, and from which numbers.
#[derive(Clone, Copy)]
pub struct Draw {
    pub losses: usize,
    pub treaties: [u64; 2],
    pub maximum: [u64; 2],
    pub least_amount: u64,
}

pub const MIXED: Draw = Draw { losses: 64, treaties: [0, 8], maximum: [1, 60_000_000], least_amount: 0 };
pub const CEDED: Draw = Draw { treaties: [1, 1], ..MIXED };
pub const LARGE: Draw = Draw { maximum: [LEAST_LARGE, 10 * LEAST_LARGE], least_amount: LEAST_LARGE, ..MIXED };
pub const LEAST_LARGE: u64 = 1_000_000_000_000;

pub fn event(random: &mut Random, draw: Draw, day: u64) -> String {
    let mut line = format!("(event {day}");
    for _ in 0..draw.losses {
        let maximum = random.between(draw.maximum[0], draw.maximum[1]);
        let treaty = random.between(draw.treaties[0], draw.treaties[1]);
        let _ = write!(line, " (loss {treaty} {maximum} {})", random.between(draw.least_amount, maximum));
    }
    line + ")\n"
}

// As many events, a day each from a first one, as so many bytes hold.
pub fn text(random: &mut Random, draw: Draw, first_day: u64, length: usize) -> String {
    let mut events = String::new();
    for day in first_day.. {
        let line = event(random, draw, day.min(LAST_DAY));
        if events.len() + line.len() > length {
            break;
        }
        events += &line;
    }
    events
}

pub fn full_text(draw: Draw) -> String {
    text(&mut Random(SEED), draw, 1, EVENTS_BYTES)
}

// Events without losses.
pub fn idle_text() -> String {
    "(event 1)\n".repeat(EVENTS_BYTES / 10)
}

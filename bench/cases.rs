// The cases of the benchmark of runs: a table and what is run under it, the same in every run.
use crate::sides::Sides;
use crate::texts::random::Random;
use crate::texts::{event, full_text, idle_text, text, Draw, CEDED, LARGE, LEAST_LARGE, MIXED, SEED};
use std::fmt::Write;

// Texts that are run one after the other, each in a fresh year.
pub struct Case {
    pub sides: Sides,
    pub texts: Vec<Vec<u8>>,
}

// A case's name, and the case, drawn when it is asked for.
type Named = (&'static str, fn() -> Case);

pub const CASES: [Named; 17] = [
    ("full", || Case::new(full_table(), [full_text(MIXED)])),
    ("two-rates", || Case::new(two_rates_table(), [full_text(MIXED)])),
    ("timed", || Case::new(timed_table(), [full_text(MIXED)])),
    ("scaled", || Case::scaled(timed_table(), [full_text(MIXED)])),
    ("unreached", || Case::new(unreached_table(), [full_text(MIXED)])),
    ("open", || Case::new(open_table(), [full_text(MIXED)])),
    ("quota", || Case::new(quota_table(0, 0), [full_text(CEDED)])),
    ("capacity", || Case::new(quota_table(10_000_000, 0), [full_text(CEDED)])),
    ("limited", || Case::new(quota_table(0, 200_000_000), [full_text(CEDED)])),
    ("surplus", || Case::new(surplus_table(), [full_text(CEDED)])),
    ("large", || Case::new(large_table(), [full_text(LARGE)])),
    ("one-loss", || Case::new(full_table(), [full_text(Draw { losses: 1, ..MIXED })])),
    ("no-loss", || Case::new(full_table(), [idle_text()])),
    ("short", || Case::new(short_table(), short_texts().take(1))),
    ("one-event", || Case::new(short_table(), ["(event 40 (loss 1 50000000 45000000))\n".to_string()])),
    ("empty", || Case::new(short_table(), [String::new()])),
    ("short-years", || Case::new(short_table(), short_texts().take(10_000))),
];

impl Case {
    pub fn new(table: String, texts: impl IntoIterator<Item = String>) -> Case {
        let texts = texts.into_iter().map(String::into_bytes).collect();
        Case { sides: Sides::new(table.as_bytes()), texts }
    }

    // The same, and a scale by steps is lent to each run.
    fn scaled(table: String, texts: impl IntoIterator<Item = String>) -> Case {
        let scale = include_bytes!("../examples/short-period-scale/scale.txt");
        Case { sides: Sides::scaled(table.as_bytes(), scale), ..Case::new(table, texts) }
    }

    // The full table with a text of just so many bytes, most of it in events of eight losses.
    pub fn of_length(length: usize) -> Case {
        let draw = Draw { losses: 8, ..MIXED };
        let losses = text(&mut Random(SEED), draw, 10, length - 100);
        // Events without losses come before it, of ten bytes and of eleven.
        let (left, longer) = (length - losses.len(), (length - losses.len()) % 10);
        let shorter = (left - 11 * longer) / 10;
        let events = "(event 1)\n".repeat(shorter) + &"(event 10)\n".repeat(longer) + &losses;
        assert_eq!(events.len(), length);
        Case::new(full_table(), [events])
    }
}

// A year of eight events.
fn short_text(random: &mut Random) -> String {
    let counts = [3, 1, 2, 4, 0, 3, 5, 2].into_iter().zip(1..);
    let draws = counts.map(|(losses, month)| (Draw { losses, treaties: [0, 1], ..MIXED }, 30 * month));
    draws.map(|(draw, day)| event(random, draw, day)).collect()
}

fn short_texts() -> impl Iterator<Item = String> {
    let mut random = Random(SEED);
    std::iter::repeat_with(move || short_text(&mut random))
}

// Eight treaties of both kinds.
pub fn treaties(capacity: u64, limit: u64, retention: u64) -> String {
    let mut table = String::new();
    for number in (1..=8).step_by(2) {
        let cede = 3_000 + 100 * number;
        let _ = writeln!(table, "(quota {number} (cede {cede}) (capacity {capacity}) (event {limit}))");
        let _ = writeln!(table, "(surplus {} (retain {retention}) (lines {number}) (event 0))", number + 1);
    }
    table
}

// So many layers one above the other, each with a rate of its own to make its reinstatements of.
fn stacked(
    tier: &str,
    count: usize,
    attachment: u64,
    limit: u64,
    deductible: u64,
    back: impl Fn(u64) -> String,
) -> String {
    let mut table = String::new();
    for i in 0..count as u64 {
        let (attachment, placed, back) = (attachment + i * limit, 9_999 - 300 * i, back(5_000 + 1_000 * i));
        let band = format!("(band {attachment} {limit})");
        let _ = writeln!(table, "({tier} {band} (deduct {deductible}) (back {back}) (placed {placed}))");
    }
    table
}

// The same with twenty reinstatements at one rate.
pub fn layers(tier: &str, count: usize, attachment: u64, limit: u64, deductible: u64, premium: u64) -> String {
    let back = |rate: u64| format!("20 {premium}") + &format!(" {rate}").repeat(20);
    stacked(tier, count, attachment, limit, deductible, back)
}

// Eight layers in each tier, so that a loss meets several of them.
pub fn full_table() -> String {
    treaties(40_000_000, 900_000_000, 10_000_000)
        + &layers("risk", 8, 2_000_000, 5_000_000, 5_000_000, 7_500_001)
        + &layers("cat", 8, 50_000_000, 150_000_000, 150_000_000, 7_500_001)
}

// The same bands, with two reinstatements at different rates.
fn two_rates_table() -> String {
    let back = |rate: u64| format!("2 7500001 {} {rate}", rate / 2);
    treaties(40_000_000, 900_000_000, 10_000_000)
        + &stacked("risk", 8, 2_000_000, 5_000_000, 5_000_000, back)
        + &stacked("cat", 8, 50_000_000, 150_000_000, 150_000_000, back)
}

// The full table, every layer of it with premium by amount and time.
fn timed_table() -> String {
    let timed = |line: &str| match line.strip_suffix(')') {
        Some(terms) if line.contains("(placed ") => format!("{terms} (time))\n"),
        _ => format!("{line}\n"),
    };
    full_table().lines().map(timed).collect()
}

// Attachments above every loss, and above every event.
fn unreached_table() -> String {
    treaties(40_000_000, 900_000_000, 10_000_000)
        + &layers("risk", 8, 1_000_000_000, 5_000_000, 5_000_000, 7_500_001)
        + &layers("cat", 8, 10_000_000_000, 150_000_000, 150_000_000, 7_500_001)
}

// No layer comes to its cap: seven risk layers have a large deductible, the eighth a large limit.
fn open_table() -> String {
    treaties(40_000_000, 900_000_000, 10_000_000)
        + &layers("risk", 7, 2_000_000, 5_000_000, 1_000_000_000_000, 7_500_001)
        + &layers("risk", 1, 37_000_000, 1_000_000_000, 0, 7_500_001)
        + &layers("cat", 8, 50_000_000, 150_000_000, 2_600_000_000, 7_500_001)
}

fn quota_table(capacity: u64, limit: u64) -> String {
    format!("(quota 1 (cede 4000) (capacity {capacity}) (event {limit}))\n")
}

fn surplus_table() -> String {
    "(surplus 1 (retain 3000000) (lines 9) (event 0))\n".to_string()
}

// Amounts up to the largest, 10^13 cents.
fn large_table() -> String {
    treaties(4 * LEAST_LARGE, 10 * LEAST_LARGE, LEAST_LARGE)
        + &layers("risk", 8, 300_000_000_000, 800_000_000_000, 800_000_000_000, 999_999_999_999)
        + &layers("cat", 8, 2 * LEAST_LARGE, LEAST_LARGE, LEAST_LARGE, 999_999_999_999)
}

fn short_table() -> String {
    "(quota 1 (cede 4000) (capacity 40000000) (event 90000000))\n\
    (risk (band 10000000 15000000) (deduct 0) (back 1 750000 10000) (placed 9000))\n\
    (cat (band 20000000 30000000) (deduct 0) (back 1 900000 10000) (placed 8000))\n\
    (cat (band 50000000 50000000) (deduct 0) (back 1 600000 5000) (placed 10000))\n"
        .to_string()
}

//! Random time scales: shares that never rise, and their texts with faults in them.

use crate::damage::{self, number_at, replace_number, Fault};
use crate::draw::{line, Lines};
use crate::random::Random;

pub const DAYS: u64 = 366;
pub const WHOLE: u64 = 10_000;
const SHARES: [u64; 9] = [0, 1, 27, 3_333, 5_000, 6_667, 7_201, 9_999, WHOLE];

/// What the shares of a scale can be.
pub const KINDS: [&str; 5] = ["built in", "one share", "by steps", "falling", "each drawn"];

/// Document 02, Q-4: for day D, 10,000 x (366 - D) / 365, rounded down.
pub fn built_in() -> Vec<u64> {
    (1..=DAYS).map(|day| WHOLE * (DAYS - day) / (DAYS - 1)).collect()
}

/// Each of the days from a first one on up to the next has a share; the shares never rise.
fn by_steps(random: &mut Random) -> Vec<u64> {
    let mut steps: Vec<(u64, u64)> = vec![(1, random.pick(&SHARES))];
    for _ in 0..random.between(1, 11) {
        let share = if random.one_in(3) { random.between(0, WHOLE) } else { random.pick(&SHARES) };
        steps.push((random.between(1, DAYS), share));
    }
    let share = |day: u64| steps.iter().filter(|(first, _)| *first <= day).map(|(_, share)| *share).min();
    (1..=DAYS).map(|day| share(day).unwrap_or(0)).collect()
}

/// Shares of one of these kinds.
pub fn shares(random: &mut Random, kind: usize) -> Vec<u64> {
    match kind {
        0 => built_in(),
        1 => vec![random.pick(&SHARES); DAYS as usize],
        2 => by_steps(random),
        3 => {
            let (first, step) = (random.pick(&[WHOLE, WHOLE, 9_999, 7_201]), random.pick(&[1, 3, 27, 28, 100]));
            (0..DAYS).map(|day| first.saturating_sub(step * day)).collect()
        }
        _ => {
            let mut shares: Vec<u64> = (0..DAYS).map(|_| random.between(0, WHOLE)).collect();
            shares.sort_unstable_by(|one, other| other.cmp(one));
            shares
        }
    }
}

/// The lines of a scale's text.
pub fn lines(shares: &[u64]) -> Lines {
    shares.iter().zip(1..).map(|(share, day)| line(format!("(day {day} {share})"))).collect()
}

/// Refusal 28: too few lines.
fn short(random: &mut Random, lines: &mut Lines, _: usize) {
    let count = random.pick(&[lines.len() - 1, lines.len() / 2, 9, 1, 0]);
    lines.truncate(count);
}

/// Refusal 28: something after the last line.
fn long(random: &mut Random, lines: &mut Lines, place: usize) {
    match random.between(0, 5) {
        0 => lines.push(lines[place].clone()),
        1 => lines.push(b"\n".to_vec()),
        2 => lines.push(vec![random.pick(b"x(\r \0")]),
        3 => lines.push(line("(day 368 20000)".to_string())),
        4 => lines.extend(lines.clone()),
        _ => lines.push(line(format!("(day {} 0)", lines.len() + 1))),
    }
}

/// Refusal 28: a day out of order.
fn day(random: &mut Random, lines: &mut Lines, place: usize) {
    let other = random.place(lines.len());
    let day = number_at(&lines[place], 0);
    let another = random.pick(&[0, 1, day + 1, day.saturating_sub(1), DAYS, DAYS + 1]);
    match random.between(0, 3) {
        0 => lines.swap(place, other),
        1 => drop(lines.remove(place)),
        2 => lines.insert(place, lines[place].clone()),
        _ => replace_number(&mut lines[place], 0, another.to_string().as_bytes()),
    }
}

/// Refusal 29: a share over 10,000.
fn range(random: &mut Random, lines: &mut Lines, place: usize) {
    let share = random.pick(&[WHOLE + 1, WHOLE + 1, 20_000, 65_536, 9_999_999_999_999_999]);
    replace_number(&mut lines[place], 1, share.to_string().as_bytes());
}

/// Refusal 30: a share above that of the day before, where that is not the whole.
fn rise(random: &mut Random, lines: &mut Lines, place: usize) {
    if let Some(before) = place.checked_sub(1) {
        let before = number_at(&lines[before], 1);
        let share = (before + random.pick(&[1, 1, 1, 100, WHOLE])).min(WHOLE);
        replace_number(&mut lines[place], 1, share.to_string().as_bytes());
    }
}

/// Refusal 28: bytes after the last line feed.
fn unended(_: &mut Random, lines: &mut Lines, _: usize) {
    if let Some(last) = lines.last_mut() {
        last.pop();
    }
}

const FAULTS: [Fault; 12] = [
    short,
    long,
    damage::form,
    damage::form,
    day,
    damage::range,
    range,
    rise,
    rise,
    unended,
    damage::line_ends,
    damage::bytes,
];

/// The text of these shares with a fault in it or several; some such texts are accepted.
pub fn damaged(random: &mut Random, shares: &[u64]) -> Vec<u8> {
    let mut lines = lines(shares);
    for _ in 0..random.pick(&[1, 1, 1, 1, 2, 3]) {
        if lines.is_empty() {
            lines.push(Vec::new());
        }
        let (last, any) = (lines.len() - 1, random.place(lines.len()));
        let place = random.pick(&[0, 1, last, any, any, any, any]).min(last);
        random.pick(&FAULTS)(random, &mut lines, place);
    }
    lines.concat()
}

/// Why a text is refused with 28, 29 or 30.
pub const REFUSED: [&str; 7] =
    ["28, too few lines", "28, too many", "28, no line feed", "28, no form", "28, another day", "29", "30"];

/// Which of these a refusal of a text is.
pub fn refused(text: &[u8], refusal: u64, second: u64) -> usize {
    let Some(place) = (second as usize).checked_sub(1) else { return 0 };
    let line = text.split_inclusive(|byte| *byte == b'\n').nth(place).unwrap_or_default();
    let of_form = format!("(day {} {})\n", number_at(line, 0), number_at(line, 1));
    match refusal {
        29 => 5,
        30 => 6,
        _ if second > DAYS => 1,
        _ if !line.ends_with(b"\n") => 2,
        _ if line == of_form.as_bytes() => 4,
        _ => 3,
    }
}

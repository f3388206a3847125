//! Random years under a client's own time scale, through the command: what it prints and its status, compared with the
//! second calculation.

use crate::calculation::time::read_scale;
use crate::cases::{Case, Cases};
use crate::printed::printed_under;
use crate::random::Random;
use crate::scales::{self, KINDS};
use crate::{lay_out, report};
use std::collections::BTreeMap;
use std::path::Path;
use std::process::{exit, Command, Output};
use std::{fs, io};

/// The refusals of a scale's text.
const REFUSALS: [u64; 3] = [28, 29, 30];

/// In turn: a year under a scale of each kind, one under a text that is refused with each number, and two under texts
/// of which a table or events at fault are one.
const TURNS: usize = KINDS.len() + REFUSALS.len() + 2;

/// A year, and the text of the scale that it is run under.
struct Scaled {
    case: Case,
    scale: Vec<u8>,
}

impl Scaled {
    fn expected(&self) -> Vec<u8> {
        printed_under(Some(&self.scale), self.case.table(), &self.case.events)
    }
}

#[derive(Default)]
struct Tally {
    accepted: usize,
    /// Accepted years whose statement is another than by the built-in shares.
    other: usize,
    refused: BTreeMap<u64, usize>,
}

/// A damaged text that is refused with this number.
fn refused_text(random: &mut Random, refusal: u64) -> Vec<u8> {
    loop {
        let shares = scales::shares(random, 2);
        let text = scales::damaged(random, &shares);
        if matches!(read_scale(&text), Err((found, _)) if found == refusal) {
            return text;
        }
    }
}

/// A year with another statement under these shares than by the built-in ones, if one comes up soon.
fn accepted(cases: &mut Cases, shares: &[u64]) -> Scaled {
    let mut tries = 12;
    loop {
        let scaled = Scaled { case: cases.year(), scale: scales::lines(shares).concat() };
        tries -= 1;
        if tries == 0 || scaled.expected() != scaled.case.expected() {
            return scaled;
        }
    }
}

fn draw(random: &mut Random, cases: &mut Cases, turn: usize) -> Scaled {
    if let Some(refusal) = turn.checked_sub(KINDS.len()).and_then(|place| REFUSALS.get(place)) {
        return Scaled { case: cases.year(), scale: refused_text(random, *refusal) };
    }
    let shares = scales::shares(random, turn % KINDS.len());
    if turn < KINDS.len() {
        return accepted(cases, &shares);
    }
    Scaled { case: cases.next(), scale: scales::damaged(random, &shares) }
}

/// The number of a refusal that was printed.
fn refusal_of(printed: &[u8]) -> Option<u64> {
    let words = std::str::from_utf8(printed).ok()?.strip_prefix("(refused ")?;
    words.split(' ').next()?.parse().ok()
}

/// Whether the command ended and printed as it should: that a refusal is of the scale, standard error says.
fn is_as_expected(output: &Output, expected: &[u8]) -> bool {
    let refusal = refusal_of(expected);
    let is_of_scale = refusal.is_some_and(|refusal| REFUSALS.contains(&refusal));
    let is_said = output.stderr.starts_with(b"cession: the scale ");
    let status = i32::from(refusal.is_some());
    output.status.code() == Some(status) && output.stdout == expected && is_said == is_of_scale
}

impl Tally {
    fn count(&mut self, scaled: &Scaled, expected: &[u8]) {
        match refusal_of(expected) {
            Some(refusal) => *self.refused.entry(refusal).or_default() += 1,
            None => {
                self.accepted += 1;
                self.other += usize::from(scaled.case.expected() != expected);
            }
        }
    }

    fn print(&self, seed: u64) {
        let refused: String = self.refused.iter().map(|(refusal, count)| format!(", {refusal}: {count}")).collect();
        let Tally { accepted, other, .. } = self;
        println!("years: under scales, seed {seed}: accepted {accepted}, not as by the built-in {other}{refused}");
    }

    /// What the years should have reached and did not.
    fn missing(&self) -> Vec<String> {
        let unseen = REFUSALS.iter().filter(|refusal| !self.refused.contains_key(refusal));
        let unseen = unseen.map(|refusal| format!("no scale refused with {refusal}"));
        let none = (self.other == 0).then(|| "no statement that is another under its scale".to_string());
        unseen.chain(none).collect()
    }
}

/// Compares so many years, the texts of each laid out in the folder.
pub fn compare(command: &Path, folder: &Path, seed: u64, count: usize) -> io::Result<()> {
    let (mut random, mut cases, mut tally) = (Random(seed), Cases::new(seed), Tally::default());
    for number in 0..count {
        let scaled = draw(&mut random, &mut cases, number % TURNS);
        let expected = scaled.expected();
        lay_out(folder, &scaled.case)?;
        let scale = folder.join("scale.txt");
        fs::write(&scale, &scaled.scale)?;
        let output = Command::new(command).arg("--scale").arg(&scale).arg(folder).output()?;
        if !is_as_expected(&output, &expected) {
            println!("years: under scales, seed {seed}, case {} differs: {}", number + 1, output.status);
            report(folder, &scaled.case, &expected, &Ok(output.stdout));
            println!("{}", String::from_utf8_lossy(&output.stderr));
            exit(1);
        }
        tally.count(&scaled, &expected);
    }
    fs::remove_dir_all(folder)?;
    tally.print(seed);
    let missing = tally.missing();
    for line in &missing {
        println!("years: {line}");
    }
    exit(i32::from(!missing.is_empty()));
}

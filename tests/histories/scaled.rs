//! A history's scale, and what the scales read and lent so far have reached.

use crate::boundary;
use crate::calculation::time::{read_scale, Scale};
use crate::history::Difference;
use crate::random::Random;
use crate::raw::{self, ScaleReading};
use crate::runs::Run;
use crate::scales::{self, DAYS, KINDS, REFUSED, WHOLE};
use crate::show::shown;

/// Shares that no text reads to: what a run is refused with 28 for.
const LENT: [&str; 6] =
    ["no shares", "too few", "too many", "the first over 10,000", "a later one over it", "one above the one before"];

/// What else holds of a run that was lent such shares.
const BESIDE: [&str; 7] =
    ["6 first", "8 first", "before 9", "before 10 to 14", "before 7", "nothing else", "no layer with (time)"];

/// For a hundred histories, how often each of these is met.
const LEAST: usize = 1;

/// The scale of a history's runs.
pub struct Own {
    pub scale: Scale,
    is_built_in: bool,
}

fn compare(text: &[u8]) -> Result<ScaleReading, Difference> {
    let expected = match read_scale(text) {
        Ok(scale) => ScaleReading { scale: record(scale.shares()), ..ScaleReading::default() },
        Err((refusal, line)) => ScaleReading { refusal, line, ..ScaleReading::default() },
    };
    let found = boundary::read_scale(text);
    if found == expected {
        return Ok(found);
    }
    Err(format!("{}\nreading differs\n--- library: {found:?}\n--- second: {expected:?}", shown("scale", text)))
}

fn record(shares: &[u64]) -> raw::Scale {
    let mut record = raw::Scale::default();
    record.shares.copy_from_slice(shares);
    record
}

impl Own {
    /// Draws a scale and reads its text, as it is and with faults in it.
    pub fn new(random: &mut Random, tally: &mut Scaled) -> Result<Own, Difference> {
        let kind = random.pick(&[0, 0, 1, 2, 2, 3, 4]);
        let shares = scales::shares(random, kind);
        let text = scales::lines(&shares).concat();
        let reading = compare(&text)?;
        if (reading.refusal, &reading.scale.shares[..]) != (0, &shares[..]) {
            return Err(format!("{}\nthe shares read differ", shown("scale", &text)));
        }
        tally.read[kind] += 1;
        let damaged = scales::damaged(random, &shares);
        tally.count_text(&damaged, &compare(&damaged)?);
        let scale = Scale::of_shares(&shares).ok_or("the second calculation refuses the scale")?;
        Ok(Own { scale, is_built_in: kind == 0 })
    }

    /// The shares that a run's parts are lent; none where they are the built-in ones.
    pub fn lent(&self) -> Option<&[u64]> {
        (!self.is_built_in).then(|| self.scale.shares())
    }

    /// What is lent to a run, which is made with each: the shares drawn for it, else the history's, and where these are
    /// the built-in ones none as well.
    pub fn ways<'a>(&'a self, run: &'a Run) -> Vec<Option<&'a [u64]>> {
        let own = self.scale.shares();
        match &run.shares {
            Some(shares) => vec![Some(shares)],
            None if self.is_built_in => vec![None, Some(own)],
            None => vec![Some(own)],
        }
    }
}

/// Which of these shares are, if no text reads to them.
fn wrong(shares: &[u64]) -> Option<usize> {
    if shares.len() != DAYS as usize {
        return Some(usize::from(!shares.is_empty()) + usize::from(shares.len() > DAYS as usize));
    }
    if shares[0] > WHOLE {
        return Some(3);
    }
    let rising = shares.windows(2).find(|pair| pair[0] < pair[1])?;
    Some(if rising[1] > WHOLE { 4 } else { 5 })
}

#[derive(Default)]
pub struct Scaled {
    /// Scales read, by kind, and damaged texts, accepted and by refusal.
    read: [usize; KINDS.len()],
    accepted: usize,
    refused: [usize; REFUSED.len()],
    /// Runs lent shares that no text reads to: refused with 28, by the shares, and by what else holds of them.
    lent: [usize; LENT.len()],
    beside: [usize; BESIDE.len()],
    /// Runs accepted with other shares than the history's, and those that charge by time under a scale of its own.
    others: usize,
    charged: usize,
}

impl Scaled {
    fn count_text(&mut self, text: &[u8], reading: &ScaleReading) {
        match reading.refusal {
            0 => self.accepted += 1,
            refusal => self.refused[scales::refused(text, refusal, reading.line)] += 1,
        }
    }

    /// Counts a run answered with this refusal; under the history's own scale it would have been the other.
    pub fn count_run(&mut self, run: &Run, refusal: u64, otherwise: impl Fn() -> u64) {
        let Some(shares) = &run.shares else { return };
        let Some(place) = wrong(shares) else {
            self.others += usize::from(refusal == 0);
            return;
        };
        let beside = match refusal {
            6 => 0,
            8 => 1,
            _ => match otherwise() {
                9 => 2,
                10..=14 => 3,
                7 => 4,
                _ => 5,
            },
        };
        self.beside[beside] += 1;
        if refusal == 28 {
            self.lent[place] += 1;
            let mut layers = run.programme.risk.places.iter().chain(&run.programme.cat.places);
            self.beside[6] += usize::from(layers.all(|terms| terms.time == 0));
        }
    }

    /// Counts an accepted run with losses charged by time.
    pub fn count_charged(&mut self, own: &Own, amount_premiums: usize) {
        self.charged += usize::from(!own.is_built_in && amount_premiums > 0);
    }

    /// What can be met, with its count, and how often it is to be met in a hundred histories.
    pub fn counts(&self) -> Vec<(String, usize, usize)> {
        let read = KINDS.iter().zip(self.read).map(|(name, count)| (format!("read, {name}"), count));
        let refused = REFUSED.iter().zip(self.refused).map(|(name, count)| (format!("refused with {name}"), count));
        let lent = LENT.iter().zip(self.lent).map(|(name, count)| (format!("lent, {name}"), count));
        let beside = BESIDE.iter().zip(self.beside).map(|(name, count)| (format!("and {name}"), count));
        let rest = [
            ("damaged texts accepted".to_string(), self.accepted),
            ("others accepted".to_string(), self.others),
            ("runs charged".to_string(), self.charged),
        ];
        let counts = read.chain(refused).chain(lent).chain(beside).chain(rest);
        counts.map(|(name, count)| (name, count, LEAST)).collect()
    }

    /// The counts in a line.
    pub fn shown(&self) -> String {
        let counts = self.counts().into_iter().map(|(name, count, _)| format!("{name} {count}"));
        format!("scales: {}", counts.collect::<Vec<String>>().join("; "))
    }
}

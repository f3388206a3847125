//! What each run of a history is lent: mostly what is accepted, at times with one rule broken or several at once.

use crate::aim;
use crate::boundary::Room;
use crate::calculation::time::Scale;
use crate::calculation::{Refusal, EVENTS_BYTES};
use crate::corrupt;
use crate::damage::{self, Fault, NEARLY_FEEDS};
use crate::draw::{self, line, Lines, Table, LARGEST_AMOUNT};
use crate::ledger::Ledger;
use crate::random::Random;
use crate::raw;

pub const LAST_DAY: u64 = 366;
/// Amounts about which a table and its losses are drawn.
pub const SCALES: [u64; 8] = [3, 100, 10_000, 10_000, 1_000_000, 1_000_000_000, 1_000_000_000_000, LARGEST_AMOUNT];

/// Lent to one run.
pub struct Run {
    pub programme: raw::Programme,
    /// A standing changed in one field, lent in place of the history's.
    pub standing: Option<raw::Standing>,
    /// Shares lent in place of the history's.
    pub shares: Option<Vec<u64>>,
    pub events: Vec<u8>,
    pub room: Room,
}

/// A rule that a run may break.
#[derive(Clone, Copy, PartialEq, Eq)]
enum Rule {
    Programme,
    Standing,
    Scale,
    Size,
    FirstDay,
    Line,
    Room,
}

const RULES: [Rule; 18] = [
    Rule::Programme,
    Rule::Programme,
    Rule::Programme,
    Rule::Standing,
    Rule::Standing,
    Rule::Standing,
    Rule::Scale,
    Rule::Scale,
    Rule::Scale,
    Rule::Size,
    Rule::FirstDay,
    Rule::Line,
    Rule::Line,
    Rule::Line,
    Rule::Line,
    Rule::Line,
    Rule::Room,
    Rule::Room,
];

const FAULTS: [Fault; 10] = [
    damage::form,
    damage::range,
    damage::count,
    damage::day,
    damage::treaty,
    damage::treaty,
    damage::events_line,
    line_end,
    damage::line_ends,
    damage::bytes,
];

/// The losses of a history's runs: with few of them deductibles and covers last for several runs.
#[derive(Clone, Copy, PartialEq, Eq)]
enum Losses {
    Few,
    Many,
    Largest,
}

impl Run {
    /// The scale that is lent, the history's or another; none where no text reads to its shares.
    pub fn scale(&self, scale: &Scale) -> Option<Scale> {
        match &self.shares {
            Some(shares) => Scale::of_shares(shares),
            None => Some(scale.clone()),
        }
    }

    /// What the run comes to by the second calculation under another scale, or none, and with a buffer of another
    /// length. With one of length 0 it is 7 and the length needed, where no other rule is broken.
    pub fn result(&self, ledger: &Ledger, scale: Option<&Scale>, length: usize) -> Result<usize, Refusal> {
        let mut ledger = match &self.standing {
            Some(standing) => Ledger::from(&self.programme, standing)?,
            None => ledger.clone(),
        };
        ledger.run(&self.programme, scale, &self.events, &mut vec![0; length])
    }
}

/// Draws the runs of one history.
pub struct Runs {
    pub random: Random,
    pub table: Table,
    scale: u64,
    losses: Losses,
}

impl Runs {
    pub fn new(mut random: Random) -> Self {
        let few_or_many = random.pick(&[Losses::Few, Losses::Few, Losses::Many]);
        let losses = if random.one_in(20) { Losses::Largest } else { few_or_many };
        let is_largest = losses == Losses::Largest;
        let scale = if is_largest { LARGEST_AMOUNT } else { random.pick(&SCALES) };
        let table = if is_largest { draw::largest_table(&mut random) } else { table(&mut random, scale) };
        Runs { random, table, scale, losses }
    }

    /// The next run, from where the ledger stands, under the history's scale.
    pub fn next(&mut self, programme: &raw::Programme, ledger: &Ledger, scale: &Scale) -> Run {
        let broken = self.broken();
        let breaks = |rule: Rule| broken.contains(&rule);
        let random = &mut self.random;
        let programme = if breaks(Rule::Programme) { corrupt::programme(random, programme) } else { *programme };
        let lent = ledger.standing();
        let standing = breaks(Rule::Standing).then(|| corrupt::standing(random, &ledger.programme, &lent));
        let shares = breaks(Rule::Scale).then(|| corrupt::shares(random, scale.shares()));
        let mut lines = self.lines(ledger);
        if breaks(Rule::FirstDay) {
            first_day(&mut self.random, &mut lines, lent.day);
        }
        for _ in broken.iter().filter(|rule| **rule == Rule::Line) {
            self.damage(&mut lines, lent.day);
        }
        let events = if breaks(Rule::Size) { self.full(&lines, lent.day) } else { lines.concat() };
        let mut run = Run { programme, standing, shares, events, room: Room::new(&mut self.random, 0) };
        let trial = run.result(ledger, run.scale(scale).as_ref(), 0);
        let length = self.length(trial, breaks(Rule::Room));
        run.room = Room::new(&mut self.random, length);
        run
    }

    fn broken(&mut self) -> Vec<Rule> {
        let count = self.random.pick(&[0, 0, 0, 0, 0, 0, 1, 1, 1, 2, 3]);
        (0..count).map(|_| self.random.pick(&RULES)).collect()
    }

    /// Lines that are accepted: drawn, aimed at a layer's bound, or none.
    fn lines(&mut self, ledger: &Ledger) -> Lines {
        let random = &mut self.random;
        let later = if random.one_in(30) { LAST_DAY } else { random.pick(&[0, 0, 1, 3, 20, 73]) };
        let day = (ledger.sums.day + later).clamp(1, LAST_DAY);
        let kind = random.between(0, 9);
        if kind == 0 {
            return Lines::new();
        }
        if kind < 5 {
            if let Some(lines) = aim::lines(random, ledger, day) {
                return lines;
            }
        }
        let count = random.pick(&[1, 1, 2, 3, 5, 8]);
        match self.losses {
            Losses::Few => few(random, self.scale, &self.table, day),
            Losses::Many => draw::events(random, self.scale, &self.table, count, day),
            Losses::Largest => draw::largest_events(random, count as u64, day),
        }
    }

    fn damage(&mut self, lines: &mut Lines, last_day: u64) {
        if lines.is_empty() {
            lines.push(line(format!("(event {})", last_day.max(1))));
        }
        let place = self.random.place(lines.len());
        self.random.pick(&FAULTS)(&mut self.random, lines, place);
    }

    /// A text of 65,536 bytes or more: events alone, or the lines and other bytes after them.
    fn full(&mut self, lines: &Lines, last_day: u64) -> Vec<u8> {
        let size = EVENTS_BYTES + self.random.pick(&[0, 1, 1, 1, 2, 1_000]);
        if self.random.one_in(2) {
            let day = self.random.between(last_day.max(100), LAST_DAY);
            return draw::full_events(&mut self.random, self.scale, &self.table, size, day);
        }
        let mut text = lines.concat();
        text.resize(size, self.random.pick(b"x\n)"));
        text
    }

    /// The length of the buffer: as needed or longer, or shorter where that rule is broken.
    fn length(&mut self, trial: Result<usize, Refusal>, is_short: bool) -> usize {
        let random = &mut self.random;
        let Err((7, needed)) = trial else {
            return random.pick(&[0, 1, 200, 5_000]);
        };
        let length = if is_short {
            let one_short = needed.saturating_sub(1);
            let shorter = random.between(0, one_short);
            random.pick(&[0, one_short, one_short, shorter])
        } else {
            needed + random.pick(&[0, 0, 1, 137, 4_000])
        };
        length as usize
    }
}

/// A table with treaties and layers of both tiers if one comes up soon.
fn table(random: &mut Random, scale: u64) -> Table {
    let has = |table: &Table, word: &[u8]| table.lines.iter().any(|line| line.starts_with(word));
    let mut tries = random.pick(&[1, 20]);
    loop {
        let table = draw::table(random, scale);
        tries -= 1;
        if tries == 0 || (!table.treaties.is_empty() && has(&table, b"(risk") && has(&table, b"(cat")) {
            return table;
        }
    }
}

/// An event or two with a loss or two.
fn few(random: &mut Random, scale: u64, table: &Table, first_day: u64) -> Lines {
    let mut lines = Lines::new();
    for later in 0..random.between(1, 2) {
        let count = random.pick(&[1, 1, 2]);
        let losses = draw::losses(random, scale, table, count);
        lines.push(line(format!("(event {}{losses})", (first_day + later).min(LAST_DAY))));
    }
    lines
}

/// A day before the standing's, or the same one, on the first line.
fn first_day(random: &mut Random, lines: &mut Lines, last_day: u64) {
    let day = random.pick(&[last_day, last_day.saturating_sub(1), last_day.saturating_sub(1), 1]).max(1);
    match lines.first_mut() {
        Some(line) => damage::replace_number(line, 0, day.to_string().as_bytes()),
        None => lines.push(line(format!("(event {day})"))),
    }
}

/// A line that does not end with one line feed.
fn line_end(random: &mut Random, lines: &mut Lines, place: usize) {
    damage::end_otherwise(&mut lines[place], random.place(NEARLY_FEEDS.len() + 1));
}


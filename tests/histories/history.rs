//! One history: a table and a scale read, a year opened, then runs that are lent one standing and the scale, each
//! compared with the ledger: result, standing and every byte of the buffer.

use crate::accepted::Accepted;
use crate::boundary::{self, Lent, Room};
use crate::calculation::{self, Refusal};
use crate::in_two::InTwo;
use crate::ledger::Ledger;
use crate::random::Random;
use crate::raw::{self, Answer, Opening, Reading};
use crate::records;
use crate::runs::{Run, Runs};
use crate::scaled::Own;
use crate::show::shown;
use crate::tally::Tally;

/// What differs, beside what was lent, to be printed.
pub type Difference = String;

/// No text of more lines is run in two.
const MOST_LINES_IN_TWO: usize = 40;

/// What a run leaves, guards included.
#[derive(Clone, PartialEq, Eq)]
struct Left {
    answer: Answer,
    lent: Lent,
    room: Room,
}

pub struct History {
    runs: Runs,
    programme: raw::Programme,
    own: Own,
    ledger: Ledger,
    standing: raw::Standing,
    accepted: Accepted,
}

fn answer(result: Result<usize, Refusal>) -> Answer {
    match result {
        Ok(length) => Answer { refusal: 0, number: length as u64 },
        Err((refusal, number)) => Answer { refusal, number },
    }
}

/// Reads the table, writes it back and opens a year; the programme's record is the second calculation's.
fn open(random: &mut Random, table: &[u8]) -> Result<(raw::Programme, Ledger), Difference> {
    let differs = |call: &str| format!("{}\n{call} differs", shown("table", table));
    let programme = calculation::read_table(table).map_err(|_| differs("reading"))?;
    let record = records::raw_programme(&programme);
    if boundary::read(table) != (Reading { refusal: 0, line: 0, programme: record }) {
        return Err(differs("reading"));
    }
    let text = calculation::table::write_table(&programme);
    let mut room = Room::new(random, text.len() + 1);
    let mut expected = room.clone();
    expected.lent()[..text.len()].copy_from_slice(&text);
    if boundary::write(&record, &mut room) != answer(Ok(text.len())) || room != expected {
        return Err(differs("writing"));
    }
    let sums = calculation::open(&programme).map_err(|_| differs("opening"))?;
    let ledger = Ledger { programme, sums };
    if boundary::open(&record) != (Opening { refusal: 0, number: 0, standing: ledger.standing() }) {
        return Err(differs("opening"));
    }
    Ok((record, ledger))
}

impl History {
    pub fn open(random: Random, tally: &mut Tally) -> Result<History, Difference> {
        let mut runs = Runs::new(random);
        let table = runs.table.lines.concat();
        let (programme, ledger) = open(&mut runs.random, &table)?;
        let own = Own::new(&mut runs.random, &mut tally.scaled)?;
        let standing = ledger.standing();
        Ok(History { runs, programme, own, ledger, standing, accepted: Accepted::default() })
    }

    /// What the second calculation says that a run leaves. Its ledger moves with the history's own standing alone.
    fn expected(&mut self, run: &Run) -> Left {
        let (mut room, scale) = (run.room.clone(), run.scale(&self.own.scale));
        let mut book = |ledger: &mut Ledger| {
            let result = ledger.run(&run.programme, scale.as_ref(), &run.events, room.lent());
            (result, ledger.standing())
        };
        let (result, standing) = match &run.standing {
            None => book(&mut self.ledger),
            Some(changed) => match Ledger::from(&run.programme, changed) {
                Ok(mut ledger) => book(&mut ledger),
                Err(refusal) => (Err(refusal), *changed),
            },
        };
        Left { answer: answer(result), lent: Lent::new(standing), room }
    }

    /// Makes the run once with each scale that it is lent; each leaves what is expected.
    fn compare(&mut self, run: &Run, lent: &raw::Standing) -> Result<Left, Difference> {
        let expected = self.expected(run);
        for scale in self.own.ways(run) {
            let (mut lent_now, mut room) = (Lent::new(*lent), run.room.clone());
            let answer = boundary::run(&run.programme, &mut lent_now, scale, &run.events, &mut room);
            let found = Left { answer, lent: lent_now, room };
            if found != expected {
                return Err(self.difference(run, scale, lent, &found, &expected));
            }
        }
        Ok(expected)
    }

    /// The next run: lends the standing, compares what is left, and keeps the standing that it had if a changed one was
    /// lent.
    pub fn run(&mut self, tally: &mut Tally) -> Result<(), Difference> {
        let run = self.runs.next(&self.programme, &self.ledger, &self.own.scale);
        let (before, ledger) = (self.standing, self.ledger.clone());
        let lent = run.standing.unwrap_or(before);
        let left = self.compare(&run, &lent)?;
        let refusal = left.answer.refusal;
        let own_scale = || run.result(&ledger, Some(&self.own.scale), run.room.length());
        tally.scaled.count_run(&run, refusal, || answer(own_scale()).refusal);
        tally.count_run(&run, &self.programme, &before, left.answer);
        if run.standing.is_none() {
            self.standing = left.lent.standing;
            if refusal == 0 {
                self.count(&run, &lent, &ledger, &left, tally);
                self.take_in(&run, &lent, &left, tally)?;
            }
        }
        Ok(())
    }

    /// Counts what an accepted run has reached, from a standing and a ledger before it.
    fn count(&self, run: &Run, from: &raw::Standing, before: &Ledger, left: &Left, tally: &mut Tally) {
        let (programme, statement) = (&self.ledger.programme, left.room.text(left.answer.number));
        let Some(scale) = run.scale(&self.own.scale) else { return };
        let charges = self.ledger.charges(from, &scale, &run.events);
        tally.count_bounds(before, &self.ledger);
        tally.timed.count_charged(before, &self.ledger);
        tally.limits.count(programme, &run.events);
        tally.roundings.count(programme, &run.events, statement, &charges);
        tally.rates.count(programme, statement);
        tally.scaled.count_charged(&self.own, charges.iter().flat_map(|charges| &charges.amount_premiums).count());
        if self.own.lent().is_none() && run.shares.is_none() {
            tally.times.count(&charges);
        }
    }

    /// What an accepted run adds to the history; at times its text is run in two as well.
    fn take_in(&mut self, run: &Run, from: &raw::Standing, left: &Left, tally: &mut Tally) -> Result<(), Difference> {
        let length = left.answer.number;
        self.accepted.add(run, left.room.text(length), &self.programme);
        let lines = run.events.iter().filter(|byte| **byte == b'\n').count();
        if lines > 0 && lines <= MOST_LINES_IN_TWO && self.runs.random.one_in(3) {
            let scale = run.shares.as_deref().or(self.own.lent());
            let (programme, events, length) = (&run.programme, &run.events, length as usize);
            let in_two = InTwo { programme, scale, from: *from, events, length };
            tally.cuts += in_two.compare(&mut self.runs.random).map_err(|found| self.with_table(&found))?;
        }
        Ok(())
    }

    pub fn end(&self, tally: &mut Tally) -> Result<(), Difference> {
        self.accepted.check(&self.ledger, self.own.scale.shares()).map_err(|found| self.with_table(&found))?;
        tally.count_history(&self.accepted.totals);
        Ok(())
    }

    fn with_table(&self, found: &str) -> Difference {
        format!("{}\n{found}", shown("table", &self.runs.table.lines.concat()))
    }

    fn difference(
        &self,
        run: &Run,
        scale: Option<&[u64]>,
        lent: &raw::Standing,
        found: &Left,
        expected: &Left,
    ) -> Difference {
        let mut lines = vec![self.with_table(&shown("events", &run.events))];
        if run.programme != self.programme {
            lines.push(format!("--- lent another programme\n{:?}", run.programme));
        }
        let is_changed = if run.standing.is_some() { ", changed on purpose" } else { "" };
        lines.push(format!("--- lent the standing{is_changed}\n{lent:?}"));
        lines.push(format!("--- lent the scale\n{scale:?}"));
        for (name, left) in [("library", found), ("second calculation", expected)] {
            let length = if left.answer.refusal == 0 { left.answer.number } else { 0 };
            lines.push(format!("--- {name}: {:?}\n{:?}", left.answer, left.lent.standing));
            lines.push(shown("statement", left.room.text(length)));
        }
        if found.lent != Lent::new(found.lent.standing) {
            lines.push("--- something beside the standing was written to".to_string());
        }
        if let Some(place) = found.room.first_difference(&expected.room) {
            let length = found.room.length();
            lines.push(format!("--- the buffers, {length} bytes lent, differ first at byte {place}, counted from 0"));
        }
        lines.join("\n")
    }
}

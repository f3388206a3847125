//! A dealing of loss lists: in an order and on days of its own, cut into runs. It is run from a fresh year through the
//! library's calls, with refused runs among its own.

use crate::boundary::{self, Lent, Room};
use crate::draw::{line, Lines};
use crate::history::Difference;
use crate::in_two::Statement;
use crate::random::Random;
use crate::raw::{Programme, Standing};
use crate::runs::LAST_DAY;
use crate::scales::{DAYS, WHOLE};
use crate::show::shown;

/// A buffer of this length is as long as any statement of a few events.
const ROOM: usize = 5_000;

/// The refusals of the runs that are among a dealing's own.
pub const REFUSALS: [u64; 6] = [7, 8, 10, 11, 13, 28];

/// The shares of a scale that lacks the last day.
const TOO_FEW: [u64; DAYS as usize - 1] = [WHOLE; DAYS as usize - 1];

/// The events texts of a dealing's runs.
pub struct Dealt(Vec<Vec<u8>>);

/// What a dealing leaves.
pub struct Left {
    pub standing: Standing,
    /// What one statement would say of all its runs.
    pub statement: Statement,
    /// The refusals of the runs among them.
    pub refused: Vec<u64>,
}

/// So many days that never go back, equal ones and the ends of the year among them.
fn days(random: &mut Random, count: usize) -> Vec<u64> {
    let often = random.between(1, LAST_DAY);
    let mut day = || {
        let any = random.between(1, LAST_DAY);
        random.pick(&[1, LAST_DAY, often, often, any, any, any, any])
    };
    let mut days: Vec<u64> = (0..count).map(|_| day()).collect();
    days.sort_unstable();
    days
}

fn shuffled<'a>(random: &mut Random, lists: &'a [String]) -> Vec<&'a String> {
    let mut lists: Vec<&String> = lists.iter().collect();
    for last in (1..lists.len()).rev() {
        lists.swap(last, random.place(last + 1));
    }
    lists
}

/// Cuts lines into texts: after every line, after some of them or after none. At times the last text is empty.
fn cut(random: &mut Random, lines: &Lines) -> Vec<Vec<u8>> {
    let rare = random.pick(&[1, 2, 4, 99]);
    let mut texts = vec![Vec::new()];
    for line in lines {
        if let Some(text) = texts.last_mut() {
            text.extend(line);
        }
        if random.one_in(rare) {
            texts.push(Vec::new());
        }
    }
    let is_empty = texts.last().is_some_and(Vec::is_empty);
    if is_empty && texts.len() > 1 && !random.one_in(4) {
        texts.pop();
    }
    texts
}

impl Dealt {
    /// Deals lists, each as the loss forms of an event.
    pub fn new(random: &mut Random, lists: &[String]) -> Dealt {
        let lists = shuffled(random, lists);
        let days = days(random, lists.len());
        let lines = lists.iter().zip(days).map(|(forms, day)| line(format!("(event {day}{forms})"))).collect();
        Dealt(cut(random, &lines))
    }

    /// How many runs it has.
    pub fn runs(&self) -> usize {
        self.0.len()
    }

    /// Makes the runs from a fresh year under a scale's shares, or none for the built-in ones.
    pub fn run(&self, random: &mut Random, programme: &Programme, scale: Option<&[u64]>) -> Result<Left, Difference> {
        let lent = Lent::new(boundary::open(programme).standing);
        let mut year = UnderWay { programme, scale, lent, refused: Vec::new() };
        let mut statement = None;
        for text in &self.0 {
            year.refuse_at_times(random, text)?;
            let next = year.accept(random, text)?;
            statement = Some(match statement {
                None => next,
                Some(before) => Statement::and_then(before, next),
            });
        }
        year.refuse_at_times(random, b"")?;
        let statement = statement.ok_or("a dealing without runs")?;
        Ok(Left { standing: year.lent.standing, statement, refused: year.refused })
    }

    /// The texts, to be read by a person.
    pub fn shown(&self) -> String {
        let texts = self.0.iter().zip(1..).map(|(text, number)| shown(&format!("events of run {number}"), text));
        texts.collect::<Vec<String>>().join("\n")
    }
}

/// A dealing under way.
struct UnderWay<'a> {
    programme: &'a Programme,
    scale: Option<&'a [u64]>,
    lent: Lent,
    refused: Vec<u64>,
}

/// What a run that is to be refused is lent.
struct Refused<'a> {
    standing: Standing,
    scale: Option<&'a [u64]>,
    events: Vec<u8>,
    length: usize,
    refusal: u64,
}

impl<'a> UnderWay<'a> {
    fn accept(&mut self, random: &mut Random, text: &[u8]) -> Result<Statement, Difference> {
        let mut room = Room::new(random, ROOM);
        let answer = boundary::run(self.programme, &mut self.lent, self.scale, text, &mut room);
        if answer.refusal == 0 {
            return Ok(Statement::new(room.text(answer.number)));
        }
        Err(format!("{}\nthis run is refused: {answer:?}", shown("events", text)))
    }

    /// A run with one rule broken: the buffer's length, the standing, a line's form, its day or the scale.
    fn broken(&self, random: &mut Random, text: &[u8]) -> Refused<'a> {
        let (standing, scale) = (self.lent.standing, self.scale);
        let whole = Refused { standing, scale, events: text.to_vec(), length: ROOM / 100, refusal: 0 };
        match random.between(0, 4) {
            0 => {
                let (mut lent, mut none) = (self.lent, Room::new(random, 0));
                let needed = boundary::run(self.programme, &mut lent, scale, text, &mut none).number as usize;
                Refused { length: random.pick(&[0, needed.saturating_sub(1)]), refusal: 7, ..whole }
            }
            1 => Refused { standing: Standing { day: LAST_DAY + 1, ..standing }, refusal: 8, ..whole },
            2 => Refused { events: [text, b"x"].concat(), refusal: 10, ..whole },
            3 => {
                // No day is before the first: 0 is out of range.
                let day = standing.day.saturating_sub(1);
                let events = [&line(format!("(event {day})")), text].concat();
                Refused { events, refusal: if day == 0 { 11 } else { 13 }, ..whole }
            }
            _ => Refused { scale: Some(&TOO_FEW), refusal: 28, ..whole },
        }
    }

    /// At times makes a run that is refused before this text is run. It leaves all that it was lent.
    fn refuse_at_times(&mut self, random: &mut Random, text: &[u8]) -> Result<(), Difference> {
        if !random.one_in(3) {
            return Ok(());
        }
        let Refused { standing, scale, events, length, refusal } = self.broken(random, text);
        let (mut lent, mut room) = (Lent::new(standing), Room::new(random, length));
        let before = (lent, room.clone());
        let answer = boundary::run(self.programme, &mut lent, scale, &events, &mut room);
        if (answer.refusal, (lent, room)) != (refusal, before) {
            return Err(format!("{}\nnot refused with {refusal}, or changed: {answer:?}", shown("events", &events)));
        }
        // The year goes on with what this run left, unless it was lent another standing.
        if standing == self.lent.standing {
            self.lent = lent;
        }
        self.refused.push(refusal);
        Ok(())
    }
}

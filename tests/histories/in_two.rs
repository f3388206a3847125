//! An accepted text in two runs, cut after each line, compared with the same text in one.

use crate::boundary::{self, Lent, Room};
use crate::history::Difference;
use crate::random::Random;
use crate::raw::{Programme, Standing};
use crate::show::shown;
use crate::totals::{numbers, totals};

/// A part's statement may be longer than the whole's: covers left in its layers' lines may have more digits.
const LONGER: usize = 2_000;

/// A statement, its lines sorted out.
#[derive(PartialEq, Eq, Debug)]
pub struct Statement {
    pub events: String,
    /// Number and amount ceded of each treaty.
    pub treaties: Vec<Vec<u64>>,
    pub layers: String,
    pub total: Vec<u64>,
}

fn lines<'a>(text: &'a str, word: &'a str) -> impl Iterator<Item = &'a str> {
    text.split_inclusive('\n').filter(move |line| line.starts_with(word))
}

impl Statement {
    pub fn new(text: &[u8]) -> Self {
        let total = totals(text).unwrap_or_default();
        let text = String::from_utf8_lossy(text);
        Statement {
            events: lines(&text, "(event").collect(),
            treaties: lines(&text, "(treaty").map(numbers).collect(),
            layers: lines(&text, "(layer").collect(),
            total,
        }
    }

    /// What one statement says of two runs: their events, the amounts added, the layers as the second left them.
    pub fn and_then(mut self, second: Statement) -> Statement {
        self.events += &second.events;
        for (treaty, more) in self.treaties.iter_mut().zip(&second.treaties) {
            treaty[1] += more[1];
        }
        for (amount, more) in self.total.iter_mut().zip(&second.total) {
            *amount += more;
        }
        Statement { layers: second.layers, ..self }
    }
}

/// The runs of a text and of its parts, all from one standing.
pub struct InTwo<'a> {
    pub programme: &'a Programme,
    /// The shares lent to each run, or none for the built-in ones.
    pub scale: Option<&'a [u64]>,
    pub from: Standing,
    pub events: &'a [u8],
    /// The length of the whole text's statement.
    pub length: usize,
}

impl InTwo<'_> {
    fn run(&self, random: &mut Random, lent: &mut Lent, events: &[u8]) -> Result<Statement, Difference> {
        let mut room = Room::new(random, self.length + LONGER);
        let answer = boundary::run(self.programme, lent, self.scale, events, &mut room);
        if answer.refusal == 0 {
            return Ok(Statement::new(room.text(answer.number)));
        }
        Err(format!("{}\nthis part is refused: {answer:?}", shown("part", events)))
    }

    fn cut(&self, random: &mut Random, place: usize) -> Result<(Statement, Lent), Difference> {
        let (first, second) = self.events.split_at(place);
        let mut lent = Lent::new(self.from);
        let first = self.run(random, &mut lent, first)?;
        let second = self.run(random, &mut lent, second)?;
        Ok((first.and_then(second), lent))
    }

    fn difference(&self, place: usize, found: &str) -> Difference {
        let (events, from) = (shown("events", self.events), self.from);
        format!("{events}\n--- from {from:?}\nin two runs, cut after byte {place}: {found}")
    }

    /// Compares at every cut, the ends included; gives how many there are.
    pub fn compare(&self, random: &mut Random) -> Result<usize, Difference> {
        let mut lent = Lent::new(self.from);
        let whole = (self.run(random, &mut lent, self.events)?, lent);
        let ends = (1..=self.events.len()).filter(|end| self.events[end - 1] == b'\n');
        let mut cuts = 0;
        for place in [0].into_iter().chain(ends) {
            let parts = self.cut(random, place).map_err(|found| self.difference(place, &found))?;
            if parts != whole {
                let (ours, theirs) = ((&parts.0, parts.1.standing), (&whole.0, whole.1.standing));
                return Err(self.difference(place, &format!("{ours:#?}\nin one: {theirs:#?}")));
            }
            cuts += 1;
        }
        Ok(cuts)
    }
}

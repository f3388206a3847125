//! The yardstick: a run of events as an ordinary fast Rust program does it, in one pass over the text and without
//! allocating. It trusts what it is given: a programme that a table reads to, a standing of that programme, time shares
//! that a scale reads to, an events text that is accepted, and a buffer that holds the statement.

mod layers;
mod programme;
mod reader;
mod treaties;
mod writer;

use layers::Tier;
pub use programme::Programme;
use programme::{MOST_LAYERS, NUMBERS, WHOLE};
use reader::Reader;
use writer::Writer;

/// The powers of ten that a word holds.
const POWERS: [u64; 20] = {
    let mut powers = [1; 20];
    let mut place = 1;
    while place < powers.len() {
        powers[place] = 10 * powers[place - 1];
        place += 1;
    }
    powers
};

/// The time shares of the days 1 to 366.
pub type Shares = [u64; 366];

/// The built-in ones.
pub const BUILT_IN: Shares = {
    let mut shares = [0; 366];
    let mut place = 0;
    while place < shares.len() {
        shares[place] = WHOLE * (365 - place as u64) / 365;
        place += 1;
    }
    shares
};

/// Each layer's spent amount and timed premium, by tier and place, and the last day run.
#[derive(Default)]
pub struct Standing {
    pub risk: [u64; MOST_LAYERS],
    pub cat: [u64; MOST_LAYERS],
    pub day: u64,
    pub risk_timed: [u64; MOST_LAYERS],
    pub cat_timed: [u64; MOST_LAYERS],
}

#[derive(Default)]
struct Amounts {
    gross: u64,
    ceded: u64,
    risk: u64,
    cat: u64,
    net: u64,
    premium: u64,
}

impl Amounts {
    fn add(&mut self, event: &Amounts) {
        self.gross += event.gross;
        self.ceded += event.ceded;
        self.risk += event.risk;
        self.cat += event.cat;
        self.net += event.net;
        self.premium += event.premium;
    }
}

/// A run under way: what each treaty, by its number, has been ceded, and the layers.
struct Run<'a> {
    programme: &'a Programme,
    ceded: [u64; NUMBERS],
    risk: Tier<'a>,
    cat: Tier<'a>,
}

impl Run<'_> {
    /// Books the losses that come next in the text. What the layers of a tier recover and charge is taken once for
    /// the event: one loss's recovery is the figure after it less the figure before it, so the differences add up. Of
    /// layers with `(time)`, if there are any, it is taken with each loss.
    #[inline(always)]
    fn event<const TIMED: bool>(&mut self, share: u64, text: &mut Reader) -> Amounts {
        let mut amounts = Amounts::default();
        let mut taken = [0; NUMBERS];
        while let Some(loss) = text.loss() {
            let ceded = self.programme.treaties[loss.treaty].ceded(&loss, taken[loss.treaty]);
            taken[loss.treaty] += ceded;
            self.ceded[loss.treaty] += ceded;
            amounts.gross += loss.amount;
            amounts.ceded += ceded;
            match TIMED {
                true => self.risk.bring_timed(loss.amount - ceded, share),
                false => self.risk.bring(loss.amount - ceded),
            }
        }
        if amounts.gross == 0 {
            return amounts;
        }
        let risk = self.risk.settle();
        let subject = amounts.gross - amounts.ceded - risk.recovered;
        match TIMED {
            true => self.cat.bring_timed(subject, share),
            false => self.cat.bring(subject),
        }
        let cat = self.cat.settle();
        amounts.risk = risk.recovered;
        amounts.cat = cat.recovered;
        amounts.net = subject - cat.recovered;
        amounts.premium = risk.premium + cat.premium;
        amounts
    }

    /// Books the events of a text, their lines in the statement and the last day; gives the totals.
    #[inline(always)]
    fn events<'b, const TIMED: bool>(
        &mut self,
        shares: &Shares,
        text: &[u8],
        statement: Writer<'b>,
        last_day: &mut u64,
    ) -> (Writer<'b>, Amounts) {
        let (mut text, mut statement) = (Reader(text), statement);
        let mut total = Amounts::default();
        while let Some(day) = text.event() {
            let share = if TIMED { shares[day as usize - 1] } else { WHOLE };
            let amounts = self.event::<TIMED>(share, &mut text);
            total.add(&amounts);
            statement = statement.event(day, &amounts);
            *last_day = day;
        }
        (statement, total)
    }

    fn contracts<'a>(&self, statement: Writer<'a>) -> Writer<'a> {
        let mut statement = statement;
        for number in self.programme.numbers() {
            statement = statement.treaty(number as u64, self.ceded[number]);
        }
        for (place, figures) in (1..).zip(self.risk.figures()) {
            statement = statement.layer(b"(layer risk ", place, &figures);
        }
        for (place, figures) in (1..).zip(self.cat.figures()) {
            statement = statement.layer(b"(layer cat ", place, &figures);
        }
        statement
    }
}

/// Runs an events text under time shares, moves the standing on, writes the statement into the buffer and gives its
/// length.
#[inline(never)]
pub fn run(
    programme: &Programme,
    standing: &mut Standing,
    shares: &Shares,
    events: &[u8],
    buffer: &mut [u8],
) -> usize {
    let mut run = Run {
        programme,
        ceded: [0; NUMBERS],
        risk: Tier::new(programme.risk(), &standing.risk, &standing.risk_timed),
        cat: Tier::new(programme.cat(), &standing.cat, &standing.cat_timed),
    };
    let room = buffer.len();
    let (statement, total) = match programme.has_timed {
        true => run.events::<true>(shares, events, Writer(buffer), &mut standing.day),
        false => run.events::<false>(shares, events, Writer(buffer), &mut standing.day),
    };
    let rest = run.contracts(statement).total(&total);
    run.risk.leave(&mut standing.risk, &mut standing.risk_timed);
    run.cat.leave(&mut standing.cat, &mut standing.cat_timed);
    room - rest.0.len()
}

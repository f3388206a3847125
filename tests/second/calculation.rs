//! The second calculation of document 01, with rates, event limits, premium by time, a client's own time scale and
//! rounding as of document 02, Q-2, Q-3, Q-4, Q-12 and Q-8, in ordinary Rust and without the engine's code. Each layer
//! keeps the sum of all losses brought to it, never cut off, and every figure is computed from that sum cut off at the
//! cap. Premium by time is the one that is not: it is the sum of what each loss was charged. So with treaties: one
//! keeps the sum of what an event's losses offer it, not cut to the event limit, and of a loss as much is ceded as the
//! cut sum grows by. Net is added up from what the insurer keeps, never taken as gross less recoveries.

#[allow(dead_code)] // the figures and the random histories call it
#[path = "dealing.rs"]
pub mod dealing;
#[path = "events.rs"]
pub mod events;
#[path = "exact.rs"]
pub mod exact;
#[path = "formulas.rs"]
mod formulas;
#[path = "statement.rs"]
mod statement;
#[path = "table.rs"]
pub mod table;
#[path = "time.rs"]
pub mod time;
#[path = "words.rs"]
mod words;

use events::{read_events, LAST_DAY};
pub use statement::Charges;
use statement::Run;
pub use table::{read_table, Programme};
use table::{Layer, MOST_LAYERS};
use time::Scale;

/// A refusal and its second number.
pub type Refusal = (u64, u64);

pub const EVENTS_BYTES: usize = 65_536;

/// The year so far: each layer's sum of losses, not cut off, and its sum of premiums by time, and the last day run.
#[derive(Clone, Debug, Default, PartialEq, Eq)]
pub struct Standing {
    pub risk: [u128; MOST_LAYERS],
    pub cat: [u128; MOST_LAYERS],
    pub day: u64,
    pub risk_timed: [u64; MOST_LAYERS],
    pub cat_timed: [u64; MOST_LAYERS],
}

/// A standing as the papers hand it over: spent amounts, each cut off at its layer's cap.
#[derive(Clone, Debug, Default, PartialEq, Eq)]
pub struct Spent {
    pub risk: [u64; MOST_LAYERS],
    pub cat: [u64; MOST_LAYERS],
    pub day: u64,
    pub risk_timed: [u64; MOST_LAYERS],
    pub cat_timed: [u64; MOST_LAYERS],
}

/// Whether sums and timed premiums can be those of a tier.
fn are_of(tier: &[Layer], sums: &[u128], timed: &[u64]) -> bool {
    let layers = tier.iter().map(Some).chain(std::iter::repeat(None));
    layers.zip(sums).zip(timed).all(|((layer, sum), timed)| match layer {
        Some(layer) => *timed <= layer.most_timed(*sum),
        None => *sum == 0 && *timed == 0,
    })
}

impl Standing {
    fn is_of(&self, programme: &Programme) -> bool {
        self.day <= LAST_DAY
            && are_of(&programme.risk, &self.risk, &self.risk_timed)
            && are_of(&programme.cat, &self.cat, &self.cat_timed)
    }
}

/// Takes over a standing of spent amounts, or refuses the programme or the standing.
pub fn take_over(programme: &Programme, spent: &Spent) -> Result<Standing, Refusal> {
    if !programme.is_of_a_table() {
        return Err((6, 0));
    }
    let Spent { risk, cat, day, risk_timed, cat_timed } = *spent;
    let standing = Standing { risk: risk.map(u128::from), cat: cat.map(u128::from), day, risk_timed, cat_timed };
    let within = |tier: &[Layer], spent: &[u64]| tier.iter().zip(spent).all(|(layer, spent)| *spent <= layer.cap());
    if standing.is_of(programme) && within(&programme.risk, &spent.risk) && within(&programme.cat, &spent.cat) {
        Ok(standing)
    } else {
        Err((8, 0))
    }
}

/// Opens a year.
pub fn open(programme: &Programme) -> Result<Standing, Refusal> {
    take_over(programme, &Spent::default())
}

/// Runs events, moves the standing and writes the statement into the buffer; gives its length.
#[allow(dead_code)] // a test that lends a scale calls the other
pub fn run(
    programme: &Programme,
    standing: &mut Standing,
    events: &[u8],
    buffer: &mut [u8],
) -> Result<usize, Refusal> {
    run_scaled(programme, standing, Some(&Scale::built_in()), events, buffer)
}

/// The same with premium by time charged by a scale: none where no text reads to the shares that were lent.
pub fn run_scaled(
    programme: &Programme,
    standing: &mut Standing,
    scale: Option<&Scale>,
    events: &[u8],
    buffer: &mut [u8],
) -> Result<usize, Refusal> {
    if !programme.is_of_a_table() {
        return Err((6, 0));
    }
    if !standing.is_of(programme) {
        return Err((8, 0));
    }
    let scale = scale.ok_or((28, 0))?;
    if events.len() > EVENTS_BYTES {
        return Err((9, 0));
    }
    let events = read_events(programme, standing.day, events)?;
    let mut run = Run::new(programme, standing, scale);
    let statement = run.statement(&events);
    let lent = buffer.get_mut(..statement.len()).ok_or((7, statement.len() as u64))?;
    lent.copy_from_slice(&statement);
    *standing = run.standing(events.last().map_or(standing.day, |event| event.day));
    Ok(statement.len())
}

/// What the events of an accepted text bring, one after the other, to the layers that charge by time.
#[allow(dead_code)] // the random years and histories count them
pub fn charges<'a>(
    programme: &'a Programme,
    standing: &Standing,
    scale: &'a Scale,
    events: &[u8],
) -> Vec<Charges<'a>> {
    let events = read_events(programme, standing.day, events).unwrap_or_default();
    let mut run = Run::new(programme, standing, scale);
    events.iter().flat_map(|event| run.charges(event)).collect()
}

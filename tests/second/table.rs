//! The treaty table: its contracts, reading and writing it.

use super::words::{number, numbers, word};
use super::Refusal;

pub const TABLE_BYTES: usize = 8_192;
pub const MOST_LAYERS: usize = 8;
pub const MOST_TREATIES: u64 = 8;
pub const LARGEST_AMOUNT: u64 = 10_000_000_000_000;
pub const WHOLE: u64 = 10_000;
pub const MOST_RATES: usize = 20;
pub const LARGEST_RATE: u64 = 20_000;

const QUOTA: &str = "(quota # (cede #) (capacity #) (event #))";
const SURPLUS: &str = "(surplus # (retain #) (lines #) (event #))";
/// A layer's line after its tier, up to its rates, and after them; before its last bracket may stand `TIME`.
const LAYER: &str = " (band # #) (deduct #) (back # #";
const PLACED: &str = ") (placed #)";
const TIME: &str = " (time)";

#[derive(Clone, Debug, PartialEq, Eq)]
pub enum Terms {
    Quota { cede: u64, capacity: u64 },
    Surplus { retention: u64, lines: u64 },
}

#[derive(Clone, Debug, PartialEq, Eq)]
pub struct Treaty {
    pub number: u64,
    pub terms: Terms,
    pub event_limit: u64,
}

#[derive(Clone, Debug, PartialEq, Eq)]
pub struct Layer {
    pub attachment: u64,
    pub limit: u64,
    pub deductible: u64,
    pub premium: u64,
    /// One for each reinstatement, in the order in which they are used.
    pub rates: Vec<u64>,
    pub placed: u64,
    /// Whether premium is by amount and time.
    pub is_timed: bool,
}

#[derive(Clone, Debug, Default, PartialEq, Eq)]
pub struct Programme {
    pub treaties: Vec<Treaty>,
    pub risk: Vec<Layer>,
    pub cat: Vec<Layer>,
}

enum Contract {
    Treaty(Treaty),
    Risk(Layer),
    Cat(Layer),
}

/// Takes the rates that stand in a line, however many, off the front.
fn rates(rest: &mut &[u8]) -> Option<Vec<u64>> {
    let mut rates = Vec::new();
    while word(rest, b" ").is_some() {
        rates.push(number(rest)?);
    }
    Some(rates)
}

/// Takes a layer off the front, past its tier. The number of its reinstatements is that of its rates.
fn layer_of(rest: &mut &[u8]) -> Option<Layer> {
    let [attachment, limit, deductible, reinstatements, premium] = numbers(LAYER, rest)?;
    let rates = rates(rest)?;
    let [placed] = numbers(PLACED, rest)?;
    let is_timed = word(rest, TIME.as_bytes()).is_some();
    word(rest, b")")?;
    let is_of_form = rates.len() as u64 == reinstatements;
    is_of_form.then_some(Layer { attachment, limit, deductible, premium, rates, placed, is_timed })
}

/// Takes a contract off the front.
fn contract_at(rest: &mut &[u8]) -> Option<Contract> {
    if word(rest, b"(risk").is_some() {
        return layer_of(rest).map(Contract::Risk);
    }
    if word(rest, b"(cat").is_some() {
        return layer_of(rest).map(Contract::Cat);
    }
    if rest.starts_with(b"(quota") {
        let [number, cede, capacity, event_limit] = numbers(QUOTA, rest)?;
        return Some(Contract::Treaty(Treaty { number, terms: Terms::Quota { cede, capacity }, event_limit }));
    }
    let [number, retention, lines, event_limit] = numbers(SURPLUS, rest)?;
    Some(Contract::Treaty(Treaty { number, terms: Terms::Surplus { retention, lines }, event_limit }))
}

fn contract_of(line: &[u8]) -> Option<Contract> {
    let mut rest = line;
    contract_at(&mut rest).filter(|_| rest.is_empty())
}

impl Treaty {
    fn in_range(&self) -> bool {
        let terms = match self.terms {
            Terms::Quota { cede, capacity } => cede <= WHOLE && capacity <= LARGEST_AMOUNT,
            Terms::Surplus { retention, lines } => retention <= LARGEST_AMOUNT && lines <= 100,
        };
        terms && (1..=MOST_TREATIES).contains(&self.number) && self.event_limit <= LARGEST_AMOUNT
    }
}

impl Layer {
    fn in_range(&self) -> bool {
        self.attachment <= LARGEST_AMOUNT
            && (1..=LARGEST_AMOUNT).contains(&self.limit)
            && self.deductible <= 1_000_000_000_000_000
            && self.rates.len() <= MOST_RATES
            && self.rates.iter().all(|rate| *rate <= LARGEST_RATE)
            && self.premium <= 1_000_000_000_000
            && self.placed <= WHOLE
    }
}

impl Contract {
    fn in_range(&self) -> bool {
        match self {
            Contract::Treaty(treaty) => treaty.in_range(),
            Contract::Risk(layer) | Contract::Cat(layer) => layer.in_range(),
        }
    }
}

/// Puts a layer at the end of its tier, or gives the refusal.
fn add_layer(tier: &mut Vec<Layer>, layer: Layer) -> Result<(), u64> {
    if tier.len() == MOST_LAYERS {
        return Err(4);
    }
    if tier.last().is_some_and(|before| layer.attachment < before.attachment + before.limit) {
        return Err(5);
    }
    tier.push(layer);
    Ok(())
}

impl Programme {
    fn add(&mut self, contract: Contract) -> Result<(), u64> {
        match contract {
            Contract::Treaty(treaty) => {
                let rising = self.treaties.last().is_none_or(|before| before.number < treaty.number);
                if !rising || !self.risk.is_empty() || !self.cat.is_empty() {
                    return Err(4);
                }
                self.treaties.push(treaty);
                Ok(())
            }
            Contract::Risk(_) if !self.cat.is_empty() => Err(4),
            Contract::Risk(layer) => add_layer(&mut self.risk, layer),
            Contract::Cat(layer) => add_layer(&mut self.cat, layer),
        }
    }

    /// Whether some table text reads to this programme; if one does, the text written from it is one.
    pub fn is_of_a_table(&self) -> bool {
        read_table(&write_table(self)).as_ref() == Ok(self)
    }

    pub fn treaty(&self, number: u64) -> Option<usize> {
        self.treaties.iter().position(|treaty| treaty.number == number)
    }
}

/// Reads a treaty table.
pub fn read_table(text: &[u8]) -> Result<Programme, Refusal> {
    if text.len() > TABLE_BYTES {
        return Err((1, 0));
    }
    let mut programme = Programme::default();
    for (line, place) in text.split_inclusive(|byte| *byte == b'\n').zip(1..) {
        let contract = line.strip_suffix(b"\n").and_then(contract_of).ok_or((2, place))?;
        if !contract.in_range() {
            return Err((3, place));
        }
        programme.add(contract).map_err(|refusal| (refusal, place))?;
    }
    Ok(programme)
}

fn treaty_line(treaty: &Treaty) -> String {
    let Treaty { number, terms, event_limit } = treaty;
    match terms {
        Terms::Quota { cede, capacity } => {
            format!("(quota {number} (cede {cede}) (capacity {capacity}) (event {event_limit}))\n")
        }
        Terms::Surplus { retention, lines } => {
            format!("(surplus {number} (retain {retention}) (lines {lines}) (event {event_limit}))\n")
        }
    }
}

fn layer_line(tier: &str, layer: &Layer) -> String {
    let Layer { attachment, limit, deductible, premium, rates, placed, is_timed } = layer;
    let listed: String = rates.iter().map(|rate| format!(" {rate}")).collect();
    let back = format!("(back {} {premium}{listed})", rates.len());
    let time = if *is_timed { TIME } else { "" };
    format!("({tier} (band {attachment} {limit}) (deduct {deductible}) {back} (placed {placed}){time})\n")
}

/// Writes a programme as a table text.
pub fn write_table(programme: &Programme) -> Vec<u8> {
    let mut text: String = programme.treaties.iter().map(treaty_line).collect();
    text.extend(programme.risk.iter().map(|layer| layer_line("risk", layer)));
    text.extend(programme.cat.iter().map(|layer| layer_line("cat", layer)));
    text.into_bytes()
}

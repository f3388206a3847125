//! Events that bring a layer's spent amount just to one of its bounds.

use crate::calculation::table::Layer;
use crate::draw::{line, Lines, LARGEST_AMOUNT};
use crate::ledger::Ledger;
use crate::random::Random;

const MOST_LOSSES: u64 = 64;

/// No more whole limits than this are brought to a layer at once.
const MOST_LIMITS: u64 = 30;

/// What a spent amount comes to: the deductible, the end of a reinstatement before the last or of the last, the cap.
pub const BOUNDS: [&str; 4] = ["deductible", "reinstatements before the last", "reinstatements", "cap"];

/// The spent amounts at which a layer comes to one of these, with its place among them.
pub fn bounds(layer: &Layer) -> Vec<(usize, u64)> {
    let (deductible, count) = (layer.deductible, layer.reinstatements());
    let deducted = (deductible > 0).then_some((0, deductible));
    let reinstated = (1..=count).map(|place| (if place < count { 1 } else { 2 }, deductible + place * layer.limit));
    deducted.into_iter().chain(reinstated).chain([(3, layer.cap())]).collect()
}

/// The subject amounts that bring a layer so much in all: as many whole limits as it takes, then the rest.
fn subjects(layer: &Layer, amount: u64) -> Vec<u64> {
    let mut subjects = vec![layer.attachment + layer.limit; (amount / layer.limit) as usize];
    subjects.push(layer.attachment + amount % layer.limit);
    subjects
}

/// Losses under no treaty.
fn event(random: &mut Random, day: u64, amounts: &[u64]) -> Vec<u8> {
    let mut form = |amount: &u64| format!(" (loss 0 {} {amount})", random.between(1, LARGEST_AMOUNT));
    let forms: String = amounts.iter().map(&mut form).collect();
    line(format!("(event {day}{forms})"))
}

/// Losses that no risk layer takes a part of, and that add up to an amount.
fn below_risk(ledger: &Ledger, amount: u64) -> Option<Vec<u64>> {
    let most = ledger.programme.risk.first().map_or(LARGEST_AMOUNT, |layer| layer.attachment);
    if most == 0 || amount / most >= MOST_LOSSES {
        return None;
    }
    let mut losses = vec![most; (amount / most) as usize];
    losses.push(amount % most);
    Some(losses)
}

/// A layer and what takes it to one of its bounds.
struct Aim<'a> {
    is_risk: bool,
    layer: &'a Layer,
    amount: u64,
}

fn aims(ledger: &Ledger) -> Vec<Aim<'_>> {
    let Ledger { programme, sums } = ledger;
    let risk = programme.risk.iter().zip(sums.risk).map(|(layer, sum)| (true, layer, sum));
    let cat = programme.cat.iter().zip(sums.cat).map(|(layer, sum)| (false, layer, sum));
    let mut aims = Vec::new();
    for (is_risk, layer, sum) in risk.chain(cat) {
        let left = |bound: u64| u128::from(bound).saturating_sub(sum) as u64;
        let mut ahead = bounds(layer);
        ahead.retain(|(_, bound)| left(*bound) > 0);
        // Of several reinstatements the next one, so that they do not outnumber the other bounds.
        ahead.dedup_by_key(|(place, _)| *place);
        for amount in ahead.into_iter().map(|(_, bound)| left(bound)) {
            if amount / layer.limit <= MOST_LIMITS && layer.attachment + layer.limit <= LARGEST_AMOUNT {
                aims.push(Aim { is_risk, layer, amount });
            }
        }
    }
    aims
}

/// Lines that leave a layer at one of its bounds, or one cent beside it; none if a few events cannot.
pub fn lines(random: &mut Random, ledger: &Ledger, day: u64) -> Option<Lines> {
    let aims = aims(ledger);
    let Aim { is_risk, layer, amount } = aims.get(random.place(aims.len().max(1)))?;
    let subjects = subjects(layer, amount + random.pick(&[0, 0, 1, 1, 1, 2]) - 1);
    if *is_risk {
        return Some(vec![event(random, day, &subjects)]);
    }
    subjects.iter().map(|subject| Some(event(random, day, &below_risk(ledger, *subject)?))).collect()
}

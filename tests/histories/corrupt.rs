//! Programmes and standings changed in one field, and scales in one share or in their length. Most are refused; some
//! are another programme, standing or scale.

use crate::calculation::table::{Layer, Programme};
use crate::damage::{Range, AMOUNT, LAYER, RATE, SHARE};
use crate::random::Random;
use crate::raw;
use crate::scales::{DAYS, WHOLE};

const TREATY: [Range; 7] = [(1, 2), (1, 8), SHARE, AMOUNT, AMOUNT, (0, 100), AMOUNT];
const TIME: Range = (0, 1);
const COUNT: Range = (0, 8);

fn treaty_fields(treaty: &mut raw::Treaty) -> [&mut u64; 7] {
    let raw::Treaty { kind, number, cede, capacity, retention, lines, limit } = treaty;
    [kind, number, cede, capacity, retention, lines, limit]
}

fn layer_fields(terms: &mut raw::Terms) -> [&mut u64; 6] {
    let raw::Terms { attachment, limit, deductible, reinstatements, premium, placed, rates: _, time: _ } = terms;
    [attachment, limit, deductible, reinstatements, premium, placed]
}

/// One of the values, other than the one that a field has.
fn other(random: &mut Random, old: u64, values: &[u64]) -> u64 {
    let another_bit = old ^ (1 << random.between(0, 63));
    let values: Vec<u64> = values.iter().copied().filter(|value| *value != old).chain([another_bit]).collect();
    random.pick(&values)
}

/// Another value for a field: past an end of its range, at it, beside the old value, or one of those that are given.
fn in_field(random: &mut Random, old: u64, (low, high): Range, given: &[u64]) -> u64 {
    let ends = [low.wrapping_sub(1), low, high, high + 1, high + 1];
    let beside = [old.wrapping_sub(1), old.wrapping_add(1), 0, 1, u64::MAX];
    other(random, old, &[&ends, &beside, given, given].concat())
}

fn count(random: &mut Random, count: usize) -> usize {
    in_field(random, count as u64, COUNT, &[]) as usize
}

/// A place, most often one that is used.
fn place(random: &mut Random, used: usize) -> usize {
    let any = used == 0 || random.one_in(4);
    random.place(if any { 8 } else { used })
}

fn treaties(random: &mut Random, treaties: &mut raw::Treaties) {
    if random.one_in(8) {
        treaties.count = count(random, treaties.count);
        return;
    }
    let (place, field) = (place(random, treaties.count), random.place(TREATY.len()));
    let numbers = treaties.places.map(|treaty| treaty.number);
    let neighbours = [numbers[place.saturating_sub(1)], numbers[(place + 1).min(7)]];
    let given = if field == 1 { &neighbours[..] } else { &[] };
    let value = in_field(random, *treaty_fields(&mut treaties.places[place])[field], TREATY[field], given);
    *treaty_fields(&mut treaties.places[place])[field] = value;
}

/// Attachments and limits with which the band meets a neighbour or goes one into it.
fn at_neighbours(places: &[raw::Terms; 8], place: usize, field: usize) -> Vec<u64> {
    let end = |terms: &raw::Terms| terms.attachment + terms.limit;
    let before = place.checked_sub(1).map_or(0, |before| end(&places[before]));
    let room = places.get(place + 1).map_or(0, |after| after.attachment.saturating_sub(places[place].attachment));
    match field {
        0 => vec![before, before.saturating_sub(1)],
        1 => vec![room, room + 1],
        _ => Vec::new(),
    }
}

/// Another rate, of a reinstatement or past the last: most often of the last one or of the first place past it.
fn rate(random: &mut Random, terms: &mut raw::Terms) {
    let last = terms.rates.len() - 1;
    let count = usize::try_from(terms.reinstatements).map_or(last, |count| count.min(last));
    let any = random.place(terms.rates.len());
    let rate = &mut terms.rates[random.pick(&[count.saturating_sub(1), count, last, any])];
    *rate = in_field(random, *rate, RATE, &[]);
}

fn tier(random: &mut Random, tier: &mut raw::Layers) {
    if random.one_in(8) {
        tier.count = count(random, tier.count);
        return;
    }
    let place = place(random, tier.count);
    if random.one_in(4) {
        return rate(random, &mut tier.places[place]);
    }
    if random.one_in(6) {
        let time = &mut tier.places[place].time;
        *time = in_field(random, *time, TIME, &[]);
        return;
    }
    let field = random.place(LAYER.len());
    let given = at_neighbours(&tier.places, place, field);
    let value = in_field(random, *layer_fields(&mut tier.places[place])[field], LAYER[field], &given);
    *layer_fields(&mut tier.places[place])[field] = value;
}

pub fn programme(random: &mut Random, programme: &raw::Programme) -> raw::Programme {
    let mut changed = *programme;
    match random.between(0, 2) {
        0 => treaties(random, &mut changed.treaties),
        1 => tier(random, &mut changed.risk),
        _ => tier(random, &mut changed.cat),
    }
    changed
}

/// Another spent amount: one above the cap, at it, or one that a layer can have. A missing layer's cap is 0.
fn spent(random: &mut Random, tier: &[Layer], spent: &mut [u64; 8]) {
    let place = place(random, tier.len());
    let cap = tier.get(place).map_or(0, Layer::cap);
    let below = random.between(0, cap);
    spent[place] = other(random, spent[place], &[cap + 1, cap + 1, cap + 1, cap, below, u64::MAX]);
}

/// Another timed premium: one above the most that the layer can have at its spent amount, that most, or one below. A
/// layer without `(time)` and a missing one can have none.
fn timed(random: &mut Random, tier: &[Layer], spent: &[u64; 8], timed: &mut [u64; 8]) {
    let most = |place: usize| tier.get(place).map_or(0, |layer| layer.most_timed(u128::from(spent[place])));
    let charged: Vec<usize> = (0..8).filter(|place| most(*place) > 0).collect();
    let any = charged.is_empty() || random.one_in(4);
    let place = if any { place(random, tier.len()) } else { random.pick(&charged) };
    let most = most(place);
    let below = random.between(0, most);
    timed[place] = other(random, timed[place], &[most + 1, most + 1, most, most, below, below, below, 0, u64::MAX]);
}

pub fn standing(random: &mut Random, programme: &Programme, standing: &raw::Standing) -> raw::Standing {
    let mut changed = *standing;
    match random.between(0, 4) {
        0 => changed.day = other(random, changed.day, &[0, 1, 365, 366, 367, 367, 368, 1 << 32, u64::MAX]),
        1 => spent(random, &programme.risk, &mut changed.risk),
        2 => spent(random, &programme.cat, &mut changed.cat),
        3 => timed(random, &programme.risk, &changed.risk, &mut changed.risk_timed),
        _ => timed(random, &programme.cat, &changed.cat, &mut changed.cat_timed),
    }
    changed
}

/// Shares of which one is above the one before, over the whole or another, or which are too few or too many.
pub fn shares(random: &mut Random, shares: &[u64]) -> Vec<u64> {
    let (mut changed, days) = (shares.to_vec(), DAYS as usize);
    let any = 1 + random.place(days - 1);
    let place = random.pick(&[1, days - 1, any]);
    match random.between(0, 9) {
        0 => changed.truncate(random.pick(&[days - 1, days - 1, 365 / 2, 1, 0])),
        1 => changed.clear(),
        2 => changed.resize(random.pick(&[days + 1, days + 1, 2 * days]), 0),
        3 => changed[0] = random.pick(&[WHOLE + 1, WHOLE + 1, u64::MAX]),
        4 => changed[place] = random.pick(&[WHOLE + 1, u64::MAX, 1 << 63]),
        5 => changed[place] = changed[place].saturating_sub(1),
        6 => changed = vec![WHOLE + 1; days],
        _ => changed[place] = changed[place - 1] + 1,
    }
    changed
}

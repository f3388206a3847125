//! Programmes and standings in the library's records and in the second calculation's.

use crate::calculation::table::{Layer, Programme, Terms, Treaty};
use crate::calculation::{Spent, Standing};
use crate::raw;

const QUOTA: u64 = 1;
const SURPLUS: u64 = 2;

fn raw_treaty(treaty: &Treaty) -> raw::Treaty {
    let (number, limit) = (treaty.number, treaty.event_limit);
    match treaty.terms {
        Terms::Quota { cede, capacity } => {
            raw::Treaty { kind: QUOTA, number, cede, capacity, limit, ..raw::Treaty::default() }
        }
        Terms::Surplus { retention, lines } => {
            raw::Treaty { kind: SURPLUS, number, retention, lines, limit, ..raw::Treaty::default() }
        }
    }
}

fn raw_terms(layer: &Layer) -> raw::Terms {
    let Layer { attachment, limit, deductible, premium, placed, .. } = *layer;
    let reinstatements = layer.reinstatements();
    let rates = places(&layer.rates, |rate| *rate);
    let time = u64::from(layer.is_timed);
    raw::Terms { attachment, limit, deductible, reinstatements, premium, placed, rates, time }
}

/// The first places filled, the others left at 0.
fn places<T, R: Copy + Default, const N: usize>(items: &[T], record: fn(&T) -> R) -> [R; N] {
    let mut places = [R::default(); N];
    for (place, item) in places.iter_mut().zip(items) {
        *place = record(item);
    }
    places
}

pub fn raw_programme(programme: &Programme) -> raw::Programme {
    let Programme { treaties, risk, cat } = programme;
    raw::Programme {
        treaties: raw::Treaties { places: places(treaties, raw_treaty), count: treaties.len() },
        risk: raw::Layers { places: places(risk, raw_terms), count: risk.len() },
        cat: raw::Layers { places: places(cat, raw_terms), count: cat.len() },
    }
}

fn treaty(record: &raw::Treaty) -> Option<Treaty> {
    let terms = match record.kind {
        QUOTA => Terms::Quota { cede: record.cede, capacity: record.capacity },
        SURPLUS => Terms::Surplus { retention: record.retention, lines: record.lines },
        _ => return None,
    };
    Some(Treaty { number: record.number, terms, event_limit: record.limit })
}

fn layer(record: &raw::Terms) -> Option<Layer> {
    let raw::Terms { attachment, limit, deductible, reinstatements, premium, placed, rates, time } = *record;
    let rates = rates.get(..usize::try_from(reinstatements).ok()?)?.to_vec();
    Some(Layer { attachment, limit, deductible, premium, rates, placed, is_timed: time == 1 })
}

fn layers(tier: &raw::Layers) -> Option<Vec<Layer>> {
    tier.places.get(..tier.count)?.iter().map(layer).collect()
}

/// The programme whose record this is; none if the record has a number that no programme's record has: a count
/// above 8, a kind that is none, more reinstatements than rates, a time other than 0 or 1, anything but 0 in an unused
/// place, in a term of the other kind or in a rate past the last reinstatement.
pub fn programme(record: &raw::Programme) -> Option<Programme> {
    let treaties = record.treaties.places.get(..record.treaties.count)?.iter().map(treaty).collect::<Option<_>>()?;
    let programme = Programme { treaties, risk: layers(&record.risk)?, cat: layers(&record.cat)? };
    (raw_programme(&programme) == *record).then_some(programme)
}

fn cut_off(tier: &[Layer], sums: &[u128; 8]) -> [u64; 8] {
    let mut spent = [0; 8];
    for ((place, layer), sum) in spent.iter_mut().zip(tier).zip(sums) {
        *place = (*sum).min(u128::from(layer.cap())) as u64;
    }
    spent
}

/// The standing of uncut sums: each cut off at its layer's cap.
pub fn raw_standing(programme: &Programme, sums: &Standing) -> raw::Standing {
    let (risk, cat) = (cut_off(&programme.risk, &sums.risk), cut_off(&programme.cat, &sums.cat));
    let Standing { day, risk_timed, cat_timed, .. } = *sums;
    raw::Standing { risk, cat, day, risk_timed, cat_timed }
}

pub fn spent(standing: &raw::Standing) -> Spent {
    let raw::Standing { risk, cat, day, risk_timed, cat_timed } = *standing;
    Spent { risk, cat, day, risk_timed, cat_timed }
}

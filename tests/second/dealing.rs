//! What a year comes to by its loss lists alone, whatever their days and their order: document 02, Q-13. A layer's sum
//! is what all lists bring it, and its figures are computed once, from that sum. Net is added up from what the insurer
//! keeps.

use super::events::Loss;
use super::formulas::{outside, Offered};
use super::table::{Layer, Programme};
use std::collections::BTreeMap;

/// Loss lists, each with how often it occurs, so that they have no order. Inside a list the losses keep theirs: what a
/// loss finds left of its treaty's event limit depends on it.
pub type Lists = BTreeMap<Vec<Loss>, u64>;

/// The three amounts of a layer at the end of the year, and what its spent amount leaves.
#[derive(Clone, Debug, PartialEq, Eq)]
pub struct Figures {
    pub spent: u64,
    pub deductible_left: u64,
    pub cover_left: u64,
    pub recovered: u64,
    pub amount_premium: u64,
}

/// A year at its end.
#[derive(Clone, Debug, PartialEq, Eq)]
pub struct Year {
    pub gross: u64,
    pub ceded: u64,
    pub risk: Vec<Figures>,
    /// None of a programme with risk layers: what these leave of a list depends on the lists before it.
    pub cat: Option<Vec<Figures>>,
    /// None of a programme with layers of both tiers, for the same reason.
    pub net: Option<u64>,
}

/// A tier's subject amounts, each with how often it occurs.
type Subjects = Vec<(u64, u64)>;

/// Counts how often each list occurs.
pub fn counted(lists: impl IntoIterator<Item = Vec<Loss>>) -> Lists {
    let mut counted = Lists::new();
    for list in lists {
        *counted.entry(list).or_default() += 1;
    }
    counted
}

/// What is ceded of each loss of a list.
fn ceded(programme: &Programme, list: &[Loss]) -> Vec<u64> {
    let mut offered = Offered::new(programme);
    list.iter().map(|loss| offered.ceded(loss).map_or(0, |(_, ceded)| ceded)).collect()
}

/// The sum of all that the subject amounts bring to a layer.
fn brought(layer: &Layer, subjects: &Subjects) -> u128 {
    subjects.iter().map(|(subject, times)| u128::from(layer.brought(*subject)) * u128::from(*times)).sum()
}

/// What each layer of a tier comes to, and what the insurer keeps of the subject amounts.
fn through(tier: &[Layer], subjects: &Subjects) -> (Vec<Figures>, u64) {
    let mut kept: u64 = subjects.iter().map(|(subject, times)| times * outside(tier.iter(), *subject)).sum();
    let mut figures = Vec::new();
    for layer in tier {
        let sum = brought(layer, subjects);
        kept += layer.kept(sum) as u64;
        figures.push(Figures {
            spent: layer.spent(sum),
            deductible_left: layer.deductible_left(sum),
            cover_left: layer.cover_left(sum),
            recovered: layer.recovered(sum),
            amount_premium: layer.amount_premium(sum),
        });
    }
    (figures, kept)
}

impl Year {
    pub fn of(programme: &Programme, lists: &Lists) -> Year {
        let (mut gross, mut all_ceded) = (0, 0);
        let (mut of_losses, mut of_lists) = (Subjects::new(), Subjects::new());
        for (list, times) in lists {
            let ceded = ceded(programme, list);
            let left: Vec<u64> = list.iter().zip(&ceded).map(|(loss, ceded)| loss.amount - ceded).collect();
            gross += times * list.iter().map(|loss| loss.amount).sum::<u64>();
            all_ceded += times * ceded.iter().sum::<u64>();
            of_losses.extend(left.iter().map(|left| (*left, *times)));
            of_lists.push((left.iter().sum(), *times));
        }
        let (risk, kept) = through(&programme.risk, &of_losses);
        let (cat, net) = if programme.risk.is_empty() {
            let (cat, kept) = through(&programme.cat, &of_lists);
            (Some(cat), Some(kept))
        } else {
            (None, programme.cat.is_empty().then_some(kept))
        };
        let year = Year { gross, ceded: all_ceded, risk, cat, net };
        debug_assert!(year.adds_up());
        year
    }

    /// Whether net, cessions and recoveries are the gross, where net follows from the lists.
    fn adds_up(&self) -> bool {
        let layers = self.risk.iter().chain(self.cat.iter().flatten());
        let recovered: u64 = layers.map(|figures| figures.recovered).sum();
        self.net.is_none_or(|net| net + self.ceded + recovered == self.gross)
    }
}

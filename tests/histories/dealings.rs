//! What the dealings compared so far have reached, and what differs between two of them: document 02, Q-13 claims
//! nothing of that.

use crate::calculation::dealing::{Figures, Lists, Year};
use crate::calculation::table::Programme;
use crate::dealt::REFUSALS;
use crate::redealt::{Drawn, Made};
use crate::totals::numbers;

/// The tiers that a table has.
const TABLES: [&str; 4] = ["cat layers only", "both tiers", "risk layers only", "no layers"];

/// What a table's treaties and layers have.
const TERMS: [&str; 4] = ["an event limit", "no event limit", "(time)", "no (time)"];

/// What is among the lists.
const LISTS: [&str; 3] = ["a list twice", "an empty list", "a list of several losses"];

/// What the figures claimed come to.
const FIGURES: [&str; 4] = ["an amount premium", "a layer exhausted", "one not exhausted", "a deductible left"];

/// What two dealings have.
const DEALT: [&str; 5] =
    ["other numbers of runs", "refused runs in both", "day 1", "day 366", "two events on one day"];

/// What may differ between two dealings. An event's amounts are compared without its day.
const OTHERS: [&str; 4] = [
    "net with both tiers",
    "a cat layer's spent amount with both tiers",
    "a premium by time under one scale",
    "the events' amounts",
];

/// For a hundred histories, how often each of these is met.
const LEAST: usize = 1;

#[derive(Default)]
pub struct Dealings {
    tables: [usize; TABLES.len()],
    terms: [usize; TERMS.len()],
    lists: [usize; LISTS.len()],
    figures: [usize; FIGURES.len()],
    dealt: [usize; DEALT.len()],
    refused: [usize; REFUSALS.len()],
    others: [usize; OTHERS.len()],
    /// Lists of which the losses, the other way about, bring a risk layer to another spent amount.
    turned: usize,
}

/// Adds to each count whether what it counts was met.
fn add<const N: usize>(counts: &mut [usize; N], met: [bool; N]) {
    for (count, is_met) in counts.iter_mut().zip(met) {
        *count += usize::from(is_met);
    }
}

/// The days of a dealing's events, and the events' amounts, sorted.
fn events(made: &Made) -> (Vec<u64>, Vec<Vec<u64>>) {
    let mut days = Vec::new();
    let mut amounts = Vec::new();
    for mut line in made.left.statement.events.lines().map(numbers) {
        amounts.push(line.split_off(1));
        days.extend(line);
    }
    amounts.sort_unstable();
    (days, amounts)
}

fn spent(tier: &[Figures]) -> Vec<u64> {
    tier.iter().map(|figures| figures.spent).collect()
}

impl Dealings {
    /// Counts lists and two dealings of them, under one scale or under two.
    pub fn count(&mut self, drawn: &Drawn, made: &[Made; 2], is_one_scale: bool) {
        let Programme { treaties, risk, cat } = &drawn.programme;
        let (has_risk, has_cat) = (!risk.is_empty(), !cat.is_empty());
        let has_limit = treaties.iter().any(|treaty| treaty.event_limit > 0);
        let has_time = drawn.layers().any(|layer| layer.is_timed);
        let tables = [(false, true), (true, true), (true, false), (false, false)];
        add(&mut self.tables, tables.map(|table| table == (has_risk, has_cat)));
        add(&mut self.terms, [has_limit, !has_limit, has_time, !has_time]);
        self.count_lists(&drawn.lists);
        self.count_figures(drawn);
        self.count_dealt(made);
        self.count_others(made, has_risk && has_cat, is_one_scale);
        if has_risk && has_limit {
            self.turned += usize::from(spent(&drawn.turned().risk) != spent(&drawn.year.risk));
        }
    }

    fn count_lists(&mut self, lists: &Lists) {
        let met = [
            lists.iter().any(|(list, times)| !list.is_empty() && *times > 1),
            lists.keys().any(Vec::is_empty),
            lists.keys().any(|list| list.len() > 1),
        ];
        add(&mut self.lists, met);
    }

    fn count_figures(&mut self, drawn: &Drawn) {
        let Year { risk, cat, .. } = &drawn.year;
        let layers: Vec<_> = drawn.layers().zip(risk.iter().chain(cat.iter().flatten())).collect();
        let figures = [
            layers.iter().any(|(_, figures)| figures.amount_premium > 0),
            layers.iter().any(|(layer, figures)| figures.spent == layer.cap()),
            layers.iter().any(|(layer, figures)| figures.recovered > 0 && figures.spent < layer.cap()),
            layers.iter().any(|(layer, figures)| figures.spent > 0 && figures.spent < layer.deductible),
        ];
        add(&mut self.figures, figures);
    }

    fn count_dealt(&mut self, made: &[Made; 2]) {
        let days = made.each_ref().map(|made| events(made).0);
        let has_day = |day: u64| days.iter().any(|days| days.contains(&day));
        let dealt = [
            made[0].dealt.runs() != made[1].dealt.runs(),
            made.iter().all(|made| !made.left.refused.is_empty()),
            has_day(1),
            has_day(366),
            days.iter().any(|days| days.windows(2).any(|pair| pair[0] == pair[1])),
        ];
        add(&mut self.dealt, dealt);
        for refusal in made.iter().flat_map(|made| &made.left.refused) {
            add(&mut self.refused, REFUSALS.map(|listed| listed == *refusal));
        }
    }

    fn count_others(&mut self, [one, other]: &[Made; 2], has_both: bool, is_one_scale: bool) {
        let net = |made: &Made| made.left.statement.total[4];
        let cat = |made: &Made| made.left.standing.cat;
        let timed = |made: &Made| (made.left.standing.risk_timed, made.left.standing.cat_timed);
        let others = [
            has_both && net(one) != net(other),
            has_both && cat(one) != cat(other),
            is_one_scale && timed(one) != timed(other),
            events(one).1 != events(other).1,
        ];
        add(&mut self.others, others);
    }

    /// What can be met, with its count, and how often it is to be met in a hundred histories.
    pub fn counts(&self) -> Vec<(String, usize, usize)> {
        let names = TABLES.iter().chain(&TERMS).chain(&LISTS).chain(&FIGURES).chain(&DEALT);
        let counts = self.tables.iter().chain(&self.terms).chain(&self.lists).chain(&self.figures).chain(&self.dealt);
        let met = names.zip(counts).map(|(name, count)| (name.to_string(), *count));
        let refused = REFUSALS.iter().zip(self.refused);
        let refused = refused.map(|(refusal, count)| (format!("refused with {refusal}"), count));
        let others = OTHERS.iter().zip(self.others).map(|(name, count)| (format!("not the same, {name}"), count));
        let turned = ("by losses the other way about, a risk layer's spent amount".to_string(), self.turned);
        let counts = met.chain(refused).chain(others).chain([turned]);
        counts.map(|(name, count)| (name, count, LEAST)).collect()
    }

    /// The counts in a line.
    pub fn shown(&self) -> String {
        let counts = self.counts().into_iter().map(|(name, count, _)| format!("{name} {count}"));
        format!("lists dealt twice: {}", counts.collect::<Vec<String>>().join("; "))
    }
}

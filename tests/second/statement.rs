//! A run of events that were read: event by event through treaties and layers, and the statement's text.

use super::events::Event;
use super::formulas::{accounts, through, Account};
use super::table::{Layer, Programme, MOST_TREATIES};
use super::time::Scale;
use super::Standing;

#[derive(Clone, Copy, Default)]
struct Amounts {
    gross: u64,
    ceded: u64,
    risk: u64,
    cat: u64,
    net: u64,
    premium: u64,
}

impl Amounts {
    fn add(&mut self, event: &Amounts) {
        self.gross += event.gross;
        self.ceded += event.ceded;
        self.risk += event.risk;
        self.cat += event.cat;
        self.net += event.net;
        self.premium += event.premium;
    }
}

/// The amount premiums of an event's losses, in turn, on a layer that charges them by time.
#[allow(dead_code)] // the random years and histories count them
pub struct Charges<'a> {
    pub layer: &'a Layer,
    pub is_risk: bool,
    pub day: u64,
    pub share: u64,
    pub amount_premiums: Vec<u64>,
}

/// A run under way.
pub struct Run<'a> {
    programme: &'a Programme,
    scale: &'a Scale,
    ceded: Vec<u64>,
    risk: Vec<Account<'a>>,
    cat: Vec<Account<'a>>,
}

impl<'a> Run<'a> {
    pub fn new(programme: &'a Programme, standing: &Standing, scale: &'a Scale) -> Self {
        Run {
            programme,
            scale,
            ceded: vec![0; programme.treaties.len()],
            risk: accounts(&programme.risk, &standing.risk, &standing.risk_timed),
            cat: accounts(&programme.cat, &standing.cat, &standing.cat_timed),
        }
    }

    fn event(&mut self, event: &Event) -> Amounts {
        let mut amounts = Amounts::default();
        let mut offered = [0; MOST_TREATIES as usize];
        let mut subject = 0;
        let share = self.scale.share_of(event.day);
        for loss in &event.losses {
            let mut left = loss.amount;
            if let Some(place) = self.programme.treaty(loss.treaty) {
                let treaty = &self.programme.treaties[place];
                let before = treaty.taken(offered[place]);
                offered[place] += treaty.offered(loss);
                let ceded = treaty.taken(offered[place]) - before;
                self.ceded[place] += ceded;
                amounts.ceded += ceded;
                left -= ceded;
            }
            let risk = through(&mut self.risk, left, share);
            amounts.gross += loss.amount;
            amounts.risk += risk.paid;
            amounts.premium += risk.premium;
            subject += risk.kept;
        }
        let cat = through(&mut self.cat, subject, share);
        (amounts.cat, amounts.net) = (cat.paid, cat.kept);
        amounts.premium += cat.premium;
        debug_assert_eq!(amounts.gross, amounts.net + amounts.ceded + amounts.risk + amounts.cat);
        amounts
    }

    pub fn statement(&mut self, events: &[Event]) -> Vec<u8> {
        let mut text = Text(Vec::with_capacity(128 * (events.len() + 32)));
        let mut total = Amounts::default();
        for event in events {
            let amounts = self.event(event);
            total.add(&amounts);
            text.word("(event ");
            text.number(event.day);
            text.amounts(&amounts);
        }
        for (treaty, ceded) in self.programme.treaties.iter().zip(&self.ceded) {
            text.word("(treaty ");
            text.number(treaty.number);
            text.items(&[("ceded", *ceded)]);
        }
        text.tier("risk", &self.risk);
        text.tier("cat", &self.cat);
        text.word("(total");
        text.amounts(&total);
        text.0
    }

    pub fn standing(&self, day: u64) -> Standing {
        let mut standing = Standing { day, ..Standing::default() };
        for (place, account) in self.risk.iter().enumerate() {
            (standing.risk[place], standing.risk_timed[place]) = (account.sum, account.timed());
        }
        for (place, account) in self.cat.iter().enumerate() {
            (standing.cat[place], standing.cat_timed[place]) = (account.sum, account.timed());
        }
        standing
    }

    /// Takes an event's losses through the layers; gives what those were brought that charge by time.
    pub fn charges(&mut self, event: &Event) -> Vec<Charges<'a>> {
        self.event(event);
        let risk = self.risk.iter_mut().map(|account| (true, account));
        let cat = self.cat.iter_mut().map(|account| (false, account));
        let charges = risk.chain(cat).map(|(is_risk, account)| Charges {
            layer: account.layer,
            is_risk,
            day: event.day,
            share: self.scale.share_of(event.day),
            amount_premiums: std::mem::take(&mut account.by_time),
        });
        charges.filter(|charges| !charges.amount_premiums.is_empty()).collect()
    }
}

struct Text(Vec<u8>);

impl Text {
    fn word(&mut self, word: &str) {
        self.0.extend_from_slice(word.as_bytes());
    }

    fn number(&mut self, number: u64) {
        let mut digits = [0; 20];
        let mut first = digits.len();
        let mut rest = number;
        loop {
            first -= 1;
            digits[first] = b'0' + (rest % 10) as u8;
            rest /= 10;
            if rest == 0 {
                break;
            }
        }
        self.0.extend_from_slice(&digits[first..]);
    }

    /// Named numbers and the end of the line.
    fn items(&mut self, items: &[(&str, u64)]) {
        for (name, number) in items {
            self.word(" (");
            self.word(name);
            self.word(" ");
            self.number(*number);
            self.word(")");
        }
        self.word(")\n");
    }

    fn amounts(&mut self, amounts: &Amounts) {
        let Amounts { gross, ceded, risk, cat, net, premium } = *amounts;
        self.items(&[
            ("gross", gross),
            ("ceded", ceded),
            ("risk", risk),
            ("cat", cat),
            ("net", net),
            ("premium", premium),
        ]);
    }

    fn tier(&mut self, name: &str, tier: &[Account]) {
        for (account, place) in tier.iter().zip(1..) {
            let layer = account.layer;
            let spent = layer.spent(account.sum);
            self.word("(layer ");
            self.word(name);
            self.word(" ");
            self.number(place);
            self.items(&[
                ("deductible", layer.deductible.saturating_sub(spent)),
                ("cover", layer.cap() - spent.max(layer.deductible)),
                ("recovered", account.recovered),
                ("premium", account.premium),
            ]);
        }
    }
}

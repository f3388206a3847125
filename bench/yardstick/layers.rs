//! Excess layers: what is brought to them, recovered and charged.

use super::programme::{basis_points, part, MOST_LAYERS, WHOLE};
use crate::calculation::table;

/// A layer's terms, with `divisor`, the limit in basis points, and what is charged with each number of limits used.
#[derive(Default)]
pub struct Layer {
    attachment: u64,
    limit: u64,
    deductible: u64,
    cap: u64,
    reinstatements: u64,
    premium: u64,
    divisor: u64,
    placed: u64,
    is_timed: bool,
    slices: [Slice; MOST_SLICES],
}

/// The slice that begins where so many limits are used: its rate, what is recovered before it, and the recoveries of
/// all slices before it, each times its rate. Past the last reinstatement the rate is 0.
#[derive(Clone, Copy, Default)]
struct Slice {
    rate: u64,
    recovered: u64,
    rated: u64,
}

/// Those of twenty reinstatements, and what is past them.
const MOST_SLICES: usize = 21;

/// What a layer or a tier has recovered and charged.
#[derive(Clone, Copy, Default)]
pub struct Paid {
    pub recovered: u64,
    pub premium: u64,
}

/// A layer's line of the statement.
pub struct Figures {
    pub deductible: u64,
    pub cover: u64,
    pub paid: Paid,
}

impl Layer {
    pub fn new(layer: &table::Layer) -> Layer {
        Layer {
            attachment: layer.attachment,
            limit: layer.limit,
            deductible: layer.deductible,
            cap: layer.cap(),
            reinstatements: layer.rates.len() as u64,
            premium: layer.premium,
            divisor: WHOLE * layer.limit,
            placed: layer.placed,
            is_timed: layer.is_timed,
            slices: slices(layer),
        }
    }

    fn paid(&self, spent: u64) -> Paid {
        let used = spent.saturating_sub(self.deductible);
        if used == 0 {
            return Paid::default();
        }
        let recovered = basis_points(used, self.placed);
        let slice = &self.slices[(used / self.limit).min(self.reinstatements) as usize];
        let rated = slice.rated + (recovered - slice.recovered) * slice.rate;
        Paid { recovered, premium: part(rated, self.premium, self.divisor) }
    }

    fn figures(&self, account: &Account, timed: u64) -> Figures {
        let premium = if self.is_timed { timed } else { account.paid.premium };
        Figures {
            deductible: self.deductible.saturating_sub(account.spent),
            cover: self.cap - account.spent.max(self.deductible),
            paid: Paid { premium, ..account.paid },
        }
    }
}

fn slices(layer: &table::Layer) -> [Slice; MOST_SLICES] {
    let mut slices = [Slice::default(); MOST_SLICES];
    for (place, rate) in layer.rates.iter().enumerate() {
        slices[place].rate = *rate;
        let Slice { recovered: before, rated, .. } = slices[place];
        let recovered = basis_points((place as u64 + 1) * layer.limit, layer.placed);
        slices[place + 1] = Slice { rate: 0, recovered, rated: rated + (recovered - before) * rate };
    }
    slices
}

/// A layer in a run: the losses of the event under way are added to `sum`, and all else is of the events before it. A
/// layer with `(time)` is settled with each loss.
#[derive(Clone, Copy, Default)]
struct Account {
    sum: u64,
    spent: u64,
    paid: Paid,
}

impl Account {
    /// Settles what was brought; gives what it recovers and, by amount, what it is charged.
    fn settle(&mut self, layer: &Layer) -> Paid {
        let paid = layer.paid(self.sum);
        let (recovered, premium) = (paid.recovered - self.paid.recovered, paid.premium - self.paid.premium);
        (self.spent, self.paid) = (self.sum, paid);
        Paid { recovered, premium }
    }
}

/// The layers of one tier in a run, the year's premiums of those with `(time)`, and what these recover and charge in
/// the event under way.
pub struct Tier<'a> {
    layers: &'a [Layer],
    accounts: [Account; MOST_LAYERS],
    timed: [u64; MOST_LAYERS],
    paid: Paid,
}

impl<'a> Tier<'a> {
    pub fn new(layers: &'a [Layer], spent: &[u64; MOST_LAYERS], timed: &[u64; MOST_LAYERS]) -> Tier<'a> {
        let mut accounts = [Account::default(); MOST_LAYERS];
        for ((account, layer), spent) in accounts.iter_mut().zip(layers).zip(spent) {
            *account = Account { sum: *spent, spent: *spent, paid: layer.paid(*spent) };
        }
        Tier { layers, accounts, timed: *timed, paid: Paid::default() }
    }

    /// Brings each layer its part of a subject amount. Attachments rise, so the first that is not exceeded ends it.
    #[inline(always)]
    pub fn bring(&mut self, subject: u64) {
        for (layer, account) in self.layers.iter().zip(&mut self.accounts) {
            if subject <= layer.attachment {
                break;
            }
            account.sum += layer.limit.min(subject - layer.attachment);
        }
    }

    /// The same, and settles the layers with `(time)`, on a day with such a time share.
    pub fn bring_timed(&mut self, subject: u64, share: u64) {
        for ((layer, account), timed) in self.layers.iter().zip(&mut self.accounts).zip(&mut self.timed) {
            if subject <= layer.attachment {
                break;
            }
            account.sum += layer.limit.min(subject - layer.attachment);
            if layer.is_timed {
                account.sum = account.sum.min(layer.cap);
                if account.sum != account.spent {
                    let paid = account.settle(layer);
                    let premium = basis_points(paid.premium, share);
                    *timed += premium;
                    self.paid.recovered += paid.recovered;
                    self.paid.premium += premium;
                }
            }
        }
    }

    /// Cuts the sums off at the caps and gives what the tier recovers and charges for all that was brought.
    pub fn settle(&mut self) -> Paid {
        let mut tier = std::mem::take(&mut self.paid);
        for (layer, account) in self.layers.iter().zip(&mut self.accounts) {
            if account.sum == account.spent {
                // A layer that was brought nothing has none above it that was; one with `(time)` is settled.
                if layer.is_timed {
                    continue;
                }
                break;
            }
            account.sum = account.sum.min(layer.cap);
            if account.sum != account.spent {
                let paid = account.settle(layer);
                tier.recovered += paid.recovered;
                tier.premium += paid.premium;
            }
        }
        tier
    }

    pub fn figures(&self) -> impl Iterator<Item = Figures> + '_ {
        let accounts = self.accounts.iter().zip(self.timed);
        self.layers.iter().zip(accounts).map(|(layer, (account, timed))| layer.figures(account, timed))
    }

    /// Leaves spent amounts and timed premiums in a standing.
    pub fn leave(&self, spent: &mut [u64; MOST_LAYERS], timed: &mut [u64; MOST_LAYERS]) {
        for (spent, account) in spent.iter_mut().zip(&self.accounts) {
            *spent = account.spent;
        }
        *timed = self.timed;
    }
}

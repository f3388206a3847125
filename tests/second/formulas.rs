//! Treaties and layers: what is ceded, recovered, kept and charged.

use super::events::Loss;
use super::exact::Exact;
use super::table::{Layer, Programme, Terms, Treaty, MOST_TREATIES, WHOLE};

impl Treaty {
    /// The share of a loss that is offered to the treaty, as a fraction: numerator and denominator.
    fn offered_share(&self, maximum: u64) -> (u64, u64) {
        match self.terms {
            Terms::Quota { cede, capacity } if capacity == 0 || maximum <= capacity => (cede, WHOLE),
            Terms::Quota { cede, capacity } => (cede * capacity, WHOLE * maximum),
            Terms::Surplus { retention, .. } if maximum <= retention => (0, 1),
            Terms::Surplus { retention, lines } if maximum > retention * (1 + lines) => (lines * retention, maximum),
            Terms::Surplus { retention, .. } => (maximum - retention, maximum),
        }
    }

    pub fn exactly_offered(&self, loss: &Loss) -> Exact {
        let (share, whole) = self.offered_share(loss.maximum);
        Exact::new(loss.amount, u128::from(share), whole)
    }

    /// What would be ceded of a loss if there were no event limit.
    pub fn offered(&self, loss: &Loss) -> u64 {
        self.exactly_offered(loss).nearest()
    }

    /// What the treaty takes where so much is offered to it in one event.
    pub fn taken(&self, offered: u64) -> u64 {
        match self.event_limit {
            0 => offered,
            limit => offered.min(limit),
        }
    }
}

/// What the losses of one event have offered to each treaty so far.
pub struct Offered<'a> {
    programme: &'a Programme,
    sums: [u64; MOST_TREATIES as usize],
}

impl<'a> Offered<'a> {
    pub fn new(programme: &'a Programme) -> Self {
        Offered { programme, sums: [0; MOST_TREATIES as usize] }
    }

    /// What is ceded of the event's next loss, after the place of its treaty; none under no treaty.
    pub fn ceded(&mut self, loss: &Loss) -> Option<(usize, u64)> {
        let place = self.programme.treaty(loss.treaty)?;
        let treaty = &self.programme.treaties[place];
        let before = treaty.taken(self.sums[place]);
        self.sums[place] += treaty.offered(loss);
        Some((place, treaty.taken(self.sums[place]) - before))
    }
}

impl Layer {
    /// The loss that a subject amount brings the layer.
    pub fn brought(&self, subject: u64) -> u64 {
        subject.saturating_sub(self.attachment).min(self.limit)
    }

    pub fn reinstatements(&self) -> u64 {
        self.rates.len() as u64
    }

    pub fn cap(&self) -> u64 {
        self.deductible + self.limit * (self.reinstatements() + 1)
    }

    /// The sum of losses, cut off at the cap.
    pub fn spent(&self, sum: u128) -> u64 {
        sum.min(u128::from(self.cap())) as u64
    }

    fn used(&self, sum: u128) -> u64 {
        self.spent(sum).saturating_sub(self.deductible)
    }

    pub fn deductible_left(&self, sum: u128) -> u64 {
        self.deductible.saturating_sub(self.spent(sum))
    }

    pub fn cover_left(&self, sum: u128) -> u64 {
        self.cap() - self.spent(sum).max(self.deductible)
    }

    pub fn at_placed_share(&self, amount: u64) -> Exact {
        Exact::new(amount, u128::from(self.placed), WHOLE)
    }

    pub fn recovered(&self, sum: u128) -> u64 {
        self.at_placed_share(self.used(sum)).nearest()
    }

    /// What the insurer keeps of the sum: the deductible eaten, the share not placed, where half a cent goes to the
    /// placed share, and what passes the cap.
    pub fn kept(&self, sum: u128) -> u128 {
        let eaten = sum.min(u128::from(self.deductible));
        let not_placed = Exact::new(self.used(sum), u128::from(WHOLE - self.placed), WHOLE).nearest_left();
        let past_cap = sum - u128::from(self.spent(sum));
        eaten + u128::from(not_placed) + past_cap
    }

    /// What is recovered with used cut at so many limits.
    fn recovered_in(&self, used: u64, limits: u64) -> u64 {
        self.at_placed_share(used.min(limits * self.limit)).nearest()
    }

    /// The slices of used, one for each reinstatement, each with its rate.
    pub fn slices(&self, used: u64) -> impl Iterator<Item = (u64, u64)> + '_ {
        let slice = move |place: u64| self.recovered_in(used, place) - self.recovered_in(used, place - 1);
        self.rates.iter().zip(1..).map(move |(rate, place)| (slice(place), *rate))
    }

    pub fn exact_premium(&self, used: u64) -> Exact {
        let rated = self.slices(used).map(|(slice, rate)| slice * rate).sum();
        Exact::new(rated, u128::from(self.premium), WHOLE * self.limit)
    }

    /// The year's amount premium.
    pub fn amount_premium(&self, sum: u128) -> u64 {
        self.exact_premium(self.used(sum)).nearest()
    }

    /// The most that can have been charged by amount and time: nothing where premium is by amount alone.
    pub fn most_timed(&self, sum: u128) -> u64 {
        if self.is_timed {
            self.amount_premium(sum)
        } else {
            0
        }
    }

    /// The premium for one loss, whose amount premium this is, on a day with such a time share.
    pub fn exactly_due(&self, amount_premium: u64, share: u64) -> Exact {
        let share = if self.is_timed { share } else { WHOLE };
        Exact::new(amount_premium, u128::from(share), WHOLE)
    }
}

/// A layer in a run: its sum of losses, the year's figures from that sum, and the premium that they were charged.
pub struct Account<'a> {
    pub layer: &'a Layer,
    pub sum: u128,
    pub recovered: u64,
    kept: u128,
    amount_premium: u64,
    pub premium: u64,
    /// The amount premium of each loss that is charged by time, in turn.
    pub by_time: Vec<u64>,
}

/// What becomes of an amount: what layers pay, what the insurer keeps, and what premium is charged.
#[derive(Default)]
pub struct Borne {
    pub paid: u64,
    pub kept: u64,
    pub premium: u64,
}

impl<'a> Account<'a> {
    fn new(layer: &'a Layer, sum: u128, timed: u64) -> Self {
        let amount_premium = layer.amount_premium(sum);
        Account {
            layer,
            sum,
            recovered: layer.recovered(sum),
            kept: layer.kept(sum),
            amount_premium,
            premium: if layer.is_timed { timed } else { amount_premium },
            by_time: Vec::new(),
        }
    }

    /// The premium charged by amount and time.
    pub fn timed(&self) -> u64 {
        if self.layer.is_timed {
            self.premium
        } else {
            0
        }
    }

    /// Brings the layer a loss on a day with such a time share.
    fn bring(&mut self, loss: u64, share: u64) -> Borne {
        let (recovered, kept) = (self.recovered, self.kept);
        self.sum += u128::from(loss);
        self.recovered = self.layer.recovered(self.sum);
        self.kept = self.layer.kept(self.sum);
        Borne { paid: self.recovered - recovered, kept: (self.kept - kept) as u64, premium: self.charge(share) }
    }

    /// The premium for the loss that was brought last.
    fn charge(&mut self, share: u64) -> u64 {
        let before = self.amount_premium;
        self.amount_premium = self.layer.amount_premium(self.sum);
        let amount_premium = self.amount_premium - before;
        let premium = self.layer.exactly_due(amount_premium, share).nearest();
        self.premium += premium;
        if self.layer.is_timed {
            self.by_time.push(amount_premium);
        }
        premium
    }
}

pub fn accounts<'a>(tier: &'a [Layer], sums: &[u128], timed: &[u64]) -> Vec<Account<'a>> {
    tier.iter().zip(sums).zip(timed).map(|((layer, sum), timed)| Account::new(layer, *sum, *timed)).collect()
}

/// The parts of a subject amount that lie outside the bands of a tier.
pub fn outside<'a>(tier: impl Iterator<Item = &'a Layer>, subject: u64) -> u64 {
    let (mut outside, mut end) = (0, 0);
    for Layer { attachment, limit, .. } in tier {
        outside += subject.min(*attachment).saturating_sub(end);
        end = attachment + limit;
    }
    outside + subject.saturating_sub(end)
}

/// Takes one subject amount through a tier on a day with such a time share. What the insurer keeps are the parts
/// outside the bands and what it keeps inside each.
pub fn through(tier: &mut [Account], subject: u64, share: u64) -> Borne {
    let mut borne = Borne::default();
    let mut reached = 0;
    for account in tier {
        let Layer { attachment, limit, .. } = *account.layer;
        if subject <= attachment {
            break;
        }
        let end = subject.min(attachment + limit);
        let inside = account.bring(end - attachment, share);
        borne.paid += inside.paid;
        borne.kept += attachment - reached + inside.kept;
        borne.premium += inside.premium;
        reached = end;
    }
    borne.kept += subject - reached;
    borne
}

//! The second calculation's side of a history: uncut sums of losses and sums of premiums by time, fed by the accepted
//! runs alone.

use crate::calculation::table::{Layer, Programme};
use crate::calculation::time::Scale;
use crate::calculation::{self, take_over, Charges, Refusal, Standing};
use crate::raw;
use crate::records;

#[derive(Clone)]
pub struct Ledger {
    /// The programme of the last accepted run.
    pub programme: Programme,
    pub sums: Standing,
}

impl Ledger {
    /// A ledger that begins with a standing that is lent.
    pub fn from(programme: &raw::Programme, lent: &raw::Standing) -> Result<Ledger, Refusal> {
        let programme = records::programme(programme).ok_or((6, 0))?;
        let sums = take_over(&programme, &records::spent(lent))?;
        Ok(Ledger { programme, sums })
    }

    /// The standing that the library must have left.
    pub fn standing(&self) -> raw::Standing {
        records::raw_standing(&self.programme, &self.sums)
    }

    /// Each layer with its sum.
    pub fn layers(&self) -> impl Iterator<Item = (&Layer, u128)> {
        let risk = self.programme.risk.iter().zip(self.sums.risk);
        risk.chain(self.programme.cat.iter().zip(self.sums.cat))
    }

    /// Each layer's premium by time.
    pub fn timed(&self) -> impl Iterator<Item = u64> + '_ {
        let Standing { risk_timed, cat_timed, .. } = &self.sums;
        let (risk, cat) = (self.programme.risk.len(), self.programme.cat.len());
        risk_timed[..risk].iter().chain(&cat_timed[..cat]).copied()
    }

    /// What events that were accepted from a standing brought to the layers that charge by time.
    pub fn charges<'a>(&'a self, from: &raw::Standing, scale: &'a Scale, events: &[u8]) -> Vec<Charges<'a>> {
        let sums = take_over(&self.programme, &records::spent(from)).unwrap_or_default();
        calculation::charges(&self.programme, &sums, scale, events)
    }

    /// Runs events under a scale, or none where no text reads to the shares lent. Under another programme the run
    /// begins with the standing that this ledger comes to.
    pub fn run(
        &mut self,
        programme: &raw::Programme,
        scale: Option<&Scale>,
        events: &[u8],
        buffer: &mut [u8],
    ) -> Result<usize, Refusal> {
        if *programme == records::raw_programme(&self.programme) {
            return calculation::run_scaled(&self.programme, &mut self.sums, scale, events, buffer);
        }
        let mut other = Ledger::from(programme, &self.standing())?;
        let length = calculation::run_scaled(&other.programme, &mut other.sums, scale, events, buffer)?;
        *self = other;
        Ok(length)
    }
}

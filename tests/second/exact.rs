//! An amount before it is rounded, and what it is rounded to.

/// So many parts, of which so many make a cent.
pub struct Exact {
    pub parts: u128,
    pub in_a_cent: u128,
}

impl Exact {
    pub fn new(amount: u64, share: u128, whole: u64) -> Self {
        Exact { parts: u128::from(amount) * share, in_a_cent: u128::from(whole) }
    }

    /// The whole cents in the amount, how far it is above them, and how far below the next cent.
    fn neighbours(&self) -> (u64, u128, u128) {
        let above = self.parts % self.in_a_cent;
        ((self.parts / self.in_a_cent) as u64, above, self.in_a_cent - above)
    }

    /// The nearer of the two neighbouring cents; of two equally near the upper one.
    pub fn nearest(&self) -> u64 {
        let (cents, above, below) = self.neighbours();
        if above < below {
            cents
        } else {
            cents + 1
        }
    }

    /// What is left of whole cents by another's nearest share: of two equally near neighbours the lower one.
    pub fn nearest_left(&self) -> u64 {
        let (cents, above, below) = self.neighbours();
        if below < above {
            cents + 1
        } else {
            cents
        }
    }
}

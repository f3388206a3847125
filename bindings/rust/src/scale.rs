//! A client's own time scale.

use crate::programme::accepted;
use crate::{raw, Refusal, DAYS};

/// A client's own time scale: the share of each day, in basis points, of its amount premium that a loss on a layer with
/// `(time)` is charged.
///
/// [`Scale::read`] gives one from a text of 366 lines `(day D S)`. One can also be made from its shares: any may be
/// lent, and those that no text reads to are refused by the run.
///
/// ```
/// use cession::{Programme, Refusal, Scale};
///
/// let table = b"(cat (band 50 100) (deduct 0) (back 1 1000 10000) (placed 9000) (time))\n";
/// let programme = Programme::read(table)?;
/// let mut standing = programme.open()?;
/// // Of 40 brought 36 are recovered, at 1,000 / 100 each 360; at 72.01% of it 259.236.
/// let events = b"(event 293 (loss 0 60 48) (loss 0 60 42))\n";
/// programme.run_scaled(&mut standing, &Scale::from([7_201; cession::DAYS]), events)?;
/// assert_eq!(standing.cat_timed()[0], 259);
///
/// let rising = Scale::from(std::array::from_fn(|place| place as u64));
/// assert_eq!(programme.run_scaled(&mut standing, &rising, b""), Err(Refusal::NotAScale { line: 0 }));
/// # Ok::<(), Refusal>(())
/// ```
#[derive(Clone, PartialEq, Eq, Debug)]
pub struct Scale(pub(crate) raw::Scale);

impl Scale {
    /// Reads a scale text.
    ///
    /// ```
    /// use cession::{Refusal, Scale};
    ///
    /// // The whole premium in the first half of the year, half of it in the second.
    /// let share = |day: u64| if day <= 183 { 10_000 } else { 5_000 };
    /// let text: String = (1..=366).map(|day| format!("(day {day} {})\n", share(day))).collect();
    /// assert_eq!(Scale::read(text.as_bytes())?.shares()[183], 5_000);
    ///
    /// assert_eq!(Scale::read(b"(day 1 10000)\n(day 2 10001)\n"), Err(Refusal::ShareOutOfRange { line: 2 }));
    /// assert_eq!(Scale::read(b"(day 1 9000)\n(day 2 9001)\n"), Err(Refusal::ShareRises { line: 2 }));
    /// assert_eq!(Scale::read(b"(day 1 9000)\n"), Err(Refusal::NotAScale { line: 0 }));
    /// # Ok::<(), Refusal>(())
    /// ```
    pub fn read(text: &[u8]) -> Result<Scale, Refusal> {
        // The text is valid for its length.
        let reading = unsafe { raw::cession_read_scale(text.as_ptr(), text.len()) };
        accepted(reading.refusal, reading.line)?;
        Ok(Scale(reading.scale))
    }

    /// The shares of the days 1 to 366.
    ///
    /// ```
    /// assert_eq!(cession::Scale::from([3_333; cession::DAYS]).shares()[0], 3_333);
    /// ```
    pub fn shares(&self) -> &[u64; DAYS] {
        &self.0.shares
    }
}

/// Any shares may be lent as a scale, also broken ones: a run refuses them.
impl From<[u64; DAYS]> for Scale {
    fn from(shares: [u64; DAYS]) -> Self {
        Scale(raw::Scale { shares })
    }
}

/// The shares, to be kept or handed on.
impl From<Scale> for [u64; DAYS] {
    fn from(scale: Scale) -> Self {
        scale.0.shares
    }
}

//! The year so far.

use crate::{raw, PLACES};

/// The year so far: each layer's spent amount and timed premium, by tier and place, and the last day run.
///
/// [`Programme::open`](crate::Programme::open) gives a fresh one, and an accepted run moves it on. It can be kept
/// between runs as its raw numbers, 33 in all; a standing that is none of the programme's is refused by the run.
///
/// ```
/// use cession::{raw, Programme, Refusal, Standing};
///
/// let programme = Programme::read(b"(cat (band 50 100) (deduct 0) (back 0 0) (placed 9000))\n")?;
/// let mut standing = programme.open()?;
/// programme.run(&mut standing, b"(event 7 (loss 0 120 120))\n")?;
/// let kept: raw::Standing = standing.into();
/// assert_eq!((kept.cat[0], kept.day), (70, 7));
///
/// let broken = raw::Standing { day: 367, ..kept };
/// assert_eq!(programme.run(&mut Standing::from(broken), b""), Err(Refusal::NotAStanding));
/// # Ok::<(), Refusal>(())
/// ```
///
/// Under a programme without `(time)` a standing may be kept as 17 numbers; the other sixteen are 0:
///
/// ```
/// use cession::{raw, Programme, Standing};
///
/// // Eight spent amounts of risk layers, eight of cat layers, and the day.
/// let kept: [u64; 17] = [0, 0, 0, 0, 0, 0, 0, 0, 70, 0, 0, 0, 0, 0, 0, 0, 7];
/// let mut numbers = raw::Standing { day: kept[16], ..raw::Standing::default() };
/// numbers.risk.copy_from_slice(&kept[..8]);
/// numbers.cat.copy_from_slice(&kept[8..16]);
/// assert_eq!((numbers.risk_timed, numbers.cat_timed), ([0; 8], [0; 8]));
///
/// let programme = Programme::read(b"(cat (band 50 100) (deduct 0) (back 0 0) (placed 9000))\n")?;
/// let mut standing = Standing::from(numbers);
/// programme.run(&mut standing, b"(event 8 (loss 0 60 60))\n")?;
/// assert_eq!((standing.cat()[0], standing.day()), (80, 8));
/// # Ok::<(), cession::Refusal>(())
/// ```
#[derive(Clone, PartialEq, Eq, Debug)]
pub struct Standing(pub(crate) raw::Standing);

impl Standing {
    /// The spent amount of each risk layer, in cents; 0 in a place without a layer.
    ///
    /// ```
    /// let programme = cession::Programme::read(b"(risk (band 50 100) (deduct 0) (back 0 0) (placed 9000))\n")?;
    /// let mut standing = programme.open()?;
    /// programme.run(&mut standing, b"(event 1 (loss 0 60 51))\n")?;
    /// assert_eq!(standing.risk(), &[1, 0, 0, 0, 0, 0, 0, 0]);
    /// # Ok::<(), cession::Refusal>(())
    /// ```
    pub fn risk(&self) -> &[u64; PLACES] {
        &self.0.risk
    }

    /// The spent amount of each cat layer, in cents; 0 in a place without a layer.
    ///
    /// ```
    /// let programme = cession::Programme::read(b"(cat (band 50 100) (deduct 0) (back 0 0) (placed 9000))\n")?;
    /// let mut standing = programme.open()?;
    /// programme.run(&mut standing, b"(event 1 (loss 0 60 48) (loss 0 60 45))\n")?;
    /// assert_eq!(standing.cat(), &[43, 0, 0, 0, 0, 0, 0, 0]);
    /// # Ok::<(), cession::Refusal>(())
    /// ```
    pub fn cat(&self) -> &[u64; PLACES] {
        &self.0.cat
    }

    /// The premium charged this year for each risk layer with `(time)`, in cents; 0 in every other place.
    ///
    /// ```
    /// let table = b"(risk (band 50 100) (deduct 0) (back 1 1000 10000) (placed 9000) (time))\n";
    /// let programme = cession::Programme::read(table)?;
    /// let mut standing = programme.open()?;
    /// // Of 50 brought 45 are recovered, at 1,000 / 100 each 450; on day 74 four fifths of the year are left.
    /// programme.run(&mut standing, b"(event 74 (loss 0 100 100))\n")?;
    /// assert_eq!(standing.risk_timed(), &[360, 0, 0, 0, 0, 0, 0, 0]);
    /// # Ok::<(), cession::Refusal>(())
    /// ```
    pub fn risk_timed(&self) -> &[u64; PLACES] {
        &self.0.risk_timed
    }

    /// The premium charged this year for each cat layer with `(time)`, in cents; 0 in every other place.
    ///
    /// ```
    /// let table = b"(cat (band 50 100) (deduct 0) (back 1 1000 10000) (placed 9000) (time))\n";
    /// let programme = cession::Programme::read(table)?;
    /// let mut standing = programme.open()?;
    /// // Of 40 brought 36 are recovered, at 1,000 / 100 each 360; on day 293 a fifth of the year is left.
    /// programme.run(&mut standing, b"(event 293 (loss 0 60 48) (loss 0 60 42))\n")?;
    /// assert_eq!(standing.cat_timed(), &[72, 0, 0, 0, 0, 0, 0, 0]);
    /// # Ok::<(), cession::Refusal>(())
    /// ```
    pub fn cat_timed(&self) -> &[u64; PLACES] {
        &self.0.cat_timed
    }

    /// The last day run, 0 before the first event.
    ///
    /// ```
    /// let programme = cession::Programme::default();
    /// let mut standing = programme.open()?;
    /// assert_eq!(standing.day(), 0);
    /// programme.run(&mut standing, b"(event 31)\n")?;
    /// assert_eq!(standing.day(), 31);
    /// # Ok::<(), cession::Refusal>(())
    /// ```
    pub fn day(&self) -> u64 {
        self.0.day
    }
}

/// Any numbers may be lent as a standing, also broken ones: a run refuses them.
impl From<raw::Standing> for Standing {
    fn from(standing: raw::Standing) -> Self {
        Standing(standing)
    }
}

/// The numbers, to be kept or handed on.
impl From<Standing> for raw::Standing {
    fn from(standing: Standing) -> Self {
        standing.0
    }
}

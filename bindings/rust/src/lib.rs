//! The cession engine for Rust: reads and writes treaty tables, reads time scales, opens a year and runs events
//! through it.
//!
//! A [`Programme`] has the contracts of a treaty table, a [`Standing`] the year so far, a [`Scale`] a client's own time
//! shares. A run takes an events text, gives the statement and moves the standing on; a call that is turned down gives
//! a [`Refusal`] and leaves everything as it was lent. Amounts are whole cents; shares and rates are basis points,
//! 10,000 to the whole. Every division is settled to the nearest cent, halves up.
//!
//! ```
//! use cession::{Programme, Scale};
//!
//! let table = b"(cat (band 100000000 150000000) (deduct 0) (back 1 75000000 5000) (placed 8000))\n";
//! let programme = Programme::read(table)?;
//! let mut standing = programme.open()?;
//! let statement = programme.run(&mut standing, b"(event 230 (loss 0 350000000 350000000))\n")?;
//! let lines: Vec<&str> = std::str::from_utf8(&statement)?.lines().collect();
//! assert_eq!(lines[1], "(layer cat 1 (deductible 0) (cover 150000000) (recovered 120000000) (premium 30000000))");
//! assert_eq!(standing.cat()[0], 150_000_000);
//! assert_eq!(standing.day(), 230);
//!
//! // By amount and time: on day 147 three fifths of the year are left.
//! let table = b"(cat (band 100000000 150000000) (deduct 0) (back 1 75000000 5000) (placed 8000) (time))\n";
//! let programme = Programme::read(table)?;
//! let mut standing = programme.open()?;
//! programme.run(&mut standing, b"(event 147 (loss 0 350000000 350000000))\n")?;
//! assert_eq!(standing.cat_timed()[0], 18_000_000);
//!
//! // By a scale of the client's own: nine tenths of the premium on every day up to 180, then nothing.
//! let line = |day: u64| format!("(day {day} {})\n", if day <= 180 { 9_000 } else { 0 });
//! let scale = Scale::read((1..=366).map(line).collect::<String>().as_bytes())?;
//! let mut standing = programme.open()?;
//! programme.run_scaled(&mut standing, &scale, b"(event 147 (loss 0 350000000 350000000))\n")?;
//! assert_eq!(standing.cat_timed()[0], 27_000_000);
//!
//! // Half of 101 is 50.5.
//! let programme = Programme::read(b"(quota 1 (cede 5000) (capacity 0) (event 0))\n")?;
//! let statement = programme.run(&mut programme.open()?, b"(event 4 (loss 1 101 101))\n")?;
//! assert!(statement.starts_with(b"(event 4 (gross 101) (ceded 51) "));
//! # Ok::<(), Box<dyn std::error::Error>>(())
//! ```
//!
//! The calls are pure functions of what is lent to them and may run in any number of threads at once. A run takes
//! about 23 kB of stack for up to 1,024 bytes of events and about 142 kB for the longest text: a thread of 256 kB has
//! enough for each call, and Rust's threads have 2 MB if nothing else is said. The library libcession.a is linked in;
//! with Cargo, `CESSION_LIB_DIR` names its folder.

mod programme;
pub mod raw;
mod refusal;
mod scale;
mod standing;

pub use programme::Programme;
pub use raw::{Terms, Treaty};
pub use refusal::Refusal;
pub use scale::Scale;
pub use standing::Standing;

/// The places for treaties, and for the layers of each tier.
///
/// ```
/// let programme = cession::raw::Programme::default();
/// assert_eq!(programme.cat.places.len(), cession::PLACES);
/// ```
pub const PLACES: usize = 8;

/// The places for the rates of a layer: it has at most as many reinstatements.
///
/// ```
/// let table = b"(cat (band 50 100) (deduct 0) (back 2 1000 0 10000) (placed 9000))\n";
/// let rates = cession::Programme::read(table)?.cat()[0].rates;
/// assert_eq!(rates.len(), cession::RATES);
/// assert_eq!(rates[..3], [0, 10_000, 0]);
/// # Ok::<(), cession::Refusal>(())
/// ```
pub const RATES: usize = 20;

/// The days of a time scale, each with its share.
///
/// ```
/// let scale = cession::Scale::from([7_201; cession::DAYS]);
/// assert_eq!(scale.shares().len(), 366);
/// ```
pub const DAYS: usize = 366;

/// The longest table text that is read, in bytes.
///
/// ```
/// use cession::{Programme, Refusal};
///
/// let long = vec![b'\n'; cession::TABLE_BYTES + 1];
/// assert_eq!(Programme::read(&long), Err(Refusal::TableTooLong));
/// ```
pub const TABLE_BYTES: usize = 8_192;

/// The longest events text that is run, in bytes.
///
/// ```
/// use cession::{Programme, Refusal};
///
/// let programme = Programme::default();
/// let long = vec![b'\n'; cession::EVENTS_BYTES + 1];
/// assert_eq!(programme.run(&mut programme.open()?, &long), Err(Refusal::EventsTooLong));
/// # Ok::<(), Refusal>(())
/// ```
pub const EVENTS_BYTES: usize = 65_536;

/// The kind of a treaty that is a quota share.
///
/// ```
/// let programme = cession::Programme::read(b"(quota 1 (cede 4000) (capacity 0) (event 0))\n")?;
/// assert_eq!(programme.treaties()[0].kind, cession::QUOTA_SHARE);
/// # Ok::<(), cession::Refusal>(())
/// ```
pub const QUOTA_SHARE: u64 = 1;

/// The kind of a treaty that is a surplus.
///
/// ```
/// let programme = cession::Programme::read(b"(surplus 1 (retain 10000) (lines 3) (event 0))\n")?;
/// assert_eq!(programme.treaties()[0].kind, cession::SURPLUS);
/// # Ok::<(), cession::Refusal>(())
/// ```
pub const SURPLUS: u64 = 2;

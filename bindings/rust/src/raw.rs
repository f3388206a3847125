//! The public calls as the library exports them, with C's layouts and calling convention. The header include/cession.h
//! says what each field means; a test compares sizes and offsets here with the header's.
//!
//! Amounts are whole cents, shares and rates basis points (bp), 10,000 to the whole.
//!
//! ```
//! use cession::raw::{cession_open, cession_read, cession_run, cession_write};
//!
//! let table = b"(quota 1 (cede 4000) (capacity 0) (event 15000))\n";
//! let events = b"(event 8 (loss 1 50000 40000))\n";
//! let mut buffer = [0u8; 1_000];
//! unsafe {
//!     let reading = cession_read(table.as_ptr(), table.len());
//!     assert_eq!((reading.refusal, reading.programme.treaties.places[0].limit), (0, 15_000));
//!     let answer = cession_write(reading.programme, buffer.as_mut_ptr(), buffer.len());
//!     assert_eq!((answer.refusal, answer.number), (0, table.len() as u64));
//!     let mut standing = cession_open(reading.programme).standing;
//!     let (text, room) = (events.as_ptr(), buffer.as_mut_ptr());
//!     let answer = cession_run(reading.programme, &mut standing, text, events.len(), room, buffer.len());
//!     assert_eq!((answer.refusal, standing.day), (0, 8));
//! }
//! // 40% of the loss is 16,000, cut to the event limit.
//! assert!(buffer.starts_with(b"(event 8 (gross 40000) (ceded 15000) "));
//! ```

/// A proportional treaty: kind 1 is a quota share, 2 a surplus. The terms of the other kind are 0.
#[repr(C)]
#[derive(Clone, Copy, Default, PartialEq, Eq, Debug)]
pub struct Treaty {
    /// 1 quota share, 2 surplus; 0 in an unused place.
    pub kind: u64,
    /// 1 to 8, rising from place to place.
    pub number: u64,
    /// Quota share: the share ceded, bp, 0 to 10,000.
    pub cede: u64,
    /// Quota share: the capacity, cents, 0 to 10^13; 0 means none.
    pub capacity: u64,
    /// Surplus: the retention, cents, 0 to 10^13.
    pub retention: u64,
    /// Surplus: the number of lines, 0 to 100.
    pub lines: u64,
    /// The event limit: the most ceded to it of one event, cents, 0 to 10^13; 0 means none.
    pub limit: u64,
}

/// The terms of an excess layer.
#[repr(C)]
#[derive(Clone, Copy, Default, PartialEq, Eq, Debug)]
pub struct Terms {
    /// Where the layer begins, cents, 0 to 10^13, at or above the end of the layer before.
    pub attachment: u64,
    /// The layer's limit, cents, 1 to 10^13.
    pub limit: u64,
    /// The yearly deductible, cents, 0 to 10^15.
    pub deductible: u64,
    /// How many, 0 to 20.
    pub reinstatements: u64,
    /// For 100% of the layer, cents, 0 to 10^12.
    pub premium: u64,
    /// The placed share, bp, 0 to 10,000.
    pub placed: u64,
    /// Each reinstatement's rate, bp, 0 to 20,000, in the order in which they are used; the rates past the last
    /// reinstatement are 0.
    pub rates: [u64; 20],
    /// 0 where premium is by amount alone, 1 where it is by amount and time: each loss's amount premium times its
    /// day's time share over 10,000, to the nearest cent. The share is that of the scale lent to the run, or without
    /// one 10,000 × (366 − day) / 365 rounded down.
    pub time: u64,
}

/// Treaties in the first `count` places; every number of the other places is 0.
#[repr(C)]
#[derive(Clone, Copy, Default, PartialEq, Eq, Debug)]
pub struct Treaties {
    /// The places, those in use first.
    pub places: [Treaty; 8],
    /// How many are in use, 0 to 8.
    pub count: usize,
}

/// The layers of one tier, in places likewise.
#[repr(C)]
#[derive(Clone, Copy, Default, PartialEq, Eq, Debug)]
pub struct Layers {
    /// The places, those in use first.
    pub places: [Terms; 8],
    /// How many are in use, 0 to 8.
    pub count: usize,
}

/// The contracts of a table.
#[repr(C)]
#[derive(Clone, Copy, Default, PartialEq, Eq, Debug)]
pub struct Programme {
    /// The proportional treaties, in the table's order.
    pub treaties: Treaties,
    /// The layers that each loss meets, after its treaty.
    pub risk: Layers,
    /// The layers that meet what the risk layers leave of an event.
    pub cat: Layers,
}

/// Each layer's spent amount and timed premium, by tier and place, and the last day run.
#[repr(C)]
#[derive(Clone, Copy, Default, PartialEq, Eq, Debug)]
pub struct Standing {
    /// The spent amount of each risk layer, cents, 0 to its cap.
    pub risk: [u64; 8],
    /// The spent amount of each cat layer, cents, 0 to its cap.
    pub cat: [u64; 8],
    /// The last day run, 0 to 366; 0 before the first event.
    pub day: u64,
    /// The premium charged this year for each risk layer with `time` 1, cents, 0 to its amount premium at its spent
    /// amount; 0 for the others.
    pub risk_timed: [u64; 8],
    /// The premium charged this year for each cat layer with `time` 1, likewise.
    pub cat_timed: [u64; 8],
}

/// A client's own time scale.
#[repr(C)]
#[derive(Clone, Copy, PartialEq, Eq, Debug)]
pub struct Scale {
    /// The shares of the days 1 to 366, bp, 0 to 10,000, none above the one before.
    pub shares: [u64; 366],
}

/// Every share is 0.
impl Default for Scale {
    fn default() -> Self {
        Scale { shares: [0; 366] }
    }
}

/// What writing and running answer.
#[repr(C)]
#[derive(Clone, Copy, Default, PartialEq, Eq, Debug)]
pub struct Answer {
    /// 0, or the refusal.
    pub refusal: u64,
    /// Accepted: the length of the text written; refused: the second number.
    pub number: u64,
}

/// What reading a table answers.
#[repr(C)]
#[derive(Clone, Copy, Default, PartialEq, Eq, Debug)]
pub struct Reading {
    /// 0, or the refusal.
    pub refusal: u64,
    /// The line at fault; 0 where the call is accepted or no single line is at fault.
    pub line: u64,
    /// The programme without contracts where the call is refused.
    pub programme: Programme,
}

/// What reading a scale answers.
#[repr(C)]
#[derive(Clone, Copy, Default, PartialEq, Eq, Debug)]
pub struct ScaleReading {
    /// 0, or the refusal.
    pub refusal: u64,
    /// The line at fault; 0 where the call is accepted or there are too few lines.
    pub line: u64,
    /// Every share 0 where the call is refused.
    pub scale: Scale,
}

/// What opening a year answers.
#[repr(C)]
#[derive(Clone, Copy, Default, PartialEq, Eq, Debug)]
pub struct Opening {
    /// 0, or the refusal.
    pub refusal: u64,
    /// 0.
    pub number: u64,
    /// All 0.
    pub standing: Standing,
}

#[link(name = "cession", kind = "static")]
extern "C" {
    /// Reads a table text.
    ///
    /// # Safety
    /// The text is valid for its length; this and the rest of the module's calls take any pointer with length 0.
    pub fn cession_read(text: *const u8, length: usize) -> Reading;
    /// Writes a programme's table text into a buffer.
    ///
    /// # Safety
    /// The buffer is valid for its length.
    pub fn cession_write(programme: Programme, buffer: *mut u8, length: usize) -> Answer;
    /// Reads a scale text.
    ///
    /// # Safety
    /// The text is valid for its length.
    pub fn cession_read_scale(text: *const u8, length: usize) -> ScaleReading;
    /// Opens a year under a programme.
    ///
    /// # Safety
    /// Nothing is asked: nothing is lent by pointer.
    pub fn cession_open(programme: Programme) -> Opening;
    /// Runs an events text, moves the standing on and writes the statement into a buffer.
    ///
    /// # Safety
    /// Events and buffer are valid for their lengths, the standing for reading and writing; none of the three overlap.
    pub fn cession_run(
        programme: Programme,
        standing: *mut Standing,
        events: *const u8,
        events_length: usize,
        buffer: *mut u8,
        length: usize,
    ) -> Answer;
    /// The same with premium by time charged at the shares of a scale, which is lent as so many shares.
    ///
    /// # Safety
    /// Scale, events and buffer are valid for their lengths, the standing for reading and writing; buffer and standing
    /// overlap neither each other nor the others.
    pub fn cession_run_scaled(
        programme: Programme,
        standing: *mut Standing,
        scale: *const u64,
        scale_length: usize,
        events: *const u8,
        events_length: usize,
        buffer: *mut u8,
        length: usize,
    ) -> Answer;
}

//! Why a call was turned down.

use std::error::Error;
use std::fmt;

/// Why a call was turned down, by document 01's numbers 1 to 14 and document 02's 28 to 30. Lines count from 1.
///
/// Its sentence is meant for the person whose text or call it is about:
///
/// ```
/// use cession::{Programme, Refusal};
///
/// let refusal = Programme::read(b"(quota 9 (cede 4000) (capacity 0) (event 0))\n").unwrap_err();
/// assert_eq!(refusal, Refusal::TableNumberOutOfRange { line: 1 });
/// assert_eq!((refusal.number(), refusal.second()), (3, 1));
/// assert_eq!(refusal.to_string(), "line 1 of the treaty table has a number outside its range");
/// ```
#[non_exhaustive]
#[derive(Clone, Copy, PartialEq, Eq, Hash, Debug)]
pub enum Refusal {
    /// 1: the table text is over 8,192 bytes.
    TableTooLong,
    /// 2: the line is none of the four forms of a table, or has no line feed; a layer's form has as many rates as
    /// reinstatements, and `(time)` may be its last item.
    NotATableForm { line: u64 },
    /// 3: a number of the line is outside its range.
    TableNumberOutOfRange { line: u64 },
    /// 4: the line's kind is out of order, it is a ninth layer, or its treaty number is not above the one before.
    TableOutOfOrder { line: u64 },
    /// 5: the line's attachment is below the end of the band before.
    BandsOverlap { line: u64 },
    /// 6: no table text reads to the programme; `time` other than 0 or 1, or anything but 0 in an unused place, is
    /// enough.
    NotAProgramme,
    /// 7: the buffer is shorter than the text, which needs this many bytes.
    BufferTooShort { needed: usize },
    /// 8: a spent amount is above its cap or not 0 for a missing layer, a timed premium is above its layer's amount
    /// premium or not 0 for a layer that is missing or has no `(time)`, or the last day is over 366.
    NotAStanding,
    /// 9: the events text is over 65,536 bytes.
    EventsTooLong,
    /// 10: the line is not an event form, or has no line feed.
    NotAnEventForm { line: u64 },
    /// 11: a number of the line is outside its range.
    EventNumberOutOfRange { line: u64 },
    /// 12: the event has over 64 losses.
    TooManyLosses { line: u64 },
    /// 13: the day is below that of the line before, in the first line below the standing's.
    DayGoesBack { line: u64 },
    /// 14: a loss names a treaty that the programme lacks.
    NoSuchTreaty { line: u64 },
    /// 28: the line of a scale is not the form `(day D S)` of its day, has no line feed, or is past day 366; line 0
    /// where the lines are too few, or where no text reads to the scale that a run was lent.
    NotAScale { line: u64 },
    /// 29: the share of the line is above 10,000.
    ShareOutOfRange { line: u64 },
    /// 30: the share of the line is above that of the day before.
    ShareRises { line: u64 },
    /// A number that this crate has no name for, from a library that is newer than it. The call changed nothing.
    Other { number: u64, second: u64 },
}

impl Refusal {
    /// The refusal with these two numbers, as the library and, from N 1 on, the program's `(refused N W)` have them.
    ///
    /// ```
    /// use cession::Refusal;
    ///
    /// assert_eq!(Refusal::from_numbers(13, 2), Refusal::DayGoesBack { line: 2 });
    /// assert_eq!(Refusal::from_numbers(15, 2), Refusal::Other { number: 15, second: 2 });
    /// ```
    pub fn from_numbers(number: u64, second: u64) -> Refusal {
        let line = second;
        match number {
            1 => Refusal::TableTooLong,
            2 => Refusal::NotATableForm { line },
            3 => Refusal::TableNumberOutOfRange { line },
            4 => Refusal::TableOutOfOrder { line },
            5 => Refusal::BandsOverlap { line },
            6 => Refusal::NotAProgramme,
            7 => Refusal::BufferTooShort { needed: second as usize },
            8 => Refusal::NotAStanding,
            9 => Refusal::EventsTooLong,
            10 => Refusal::NotAnEventForm { line },
            11 => Refusal::EventNumberOutOfRange { line },
            12 => Refusal::TooManyLosses { line },
            13 => Refusal::DayGoesBack { line },
            14 => Refusal::NoSuchTreaty { line },
            28 => Refusal::NotAScale { line },
            29 => Refusal::ShareOutOfRange { line },
            30 => Refusal::ShareRises { line },
            _ => Refusal::Other { number, second },
        }
    }

    /// The number, as documents 01 and 02 have it.
    ///
    /// ```
    /// assert_eq!(cession::Refusal::NotAProgramme.number(), 6);
    /// ```
    pub fn number(&self) -> u64 {
        match *self {
            Refusal::TableTooLong => 1,
            Refusal::NotATableForm { .. } => 2,
            Refusal::TableNumberOutOfRange { .. } => 3,
            Refusal::TableOutOfOrder { .. } => 4,
            Refusal::BandsOverlap { .. } => 5,
            Refusal::NotAProgramme => 6,
            Refusal::BufferTooShort { .. } => 7,
            Refusal::NotAStanding => 8,
            Refusal::EventsTooLong => 9,
            Refusal::NotAnEventForm { .. } => 10,
            Refusal::EventNumberOutOfRange { .. } => 11,
            Refusal::TooManyLosses { .. } => 12,
            Refusal::DayGoesBack { .. } => 13,
            Refusal::NoSuchTreaty { .. } => 14,
            Refusal::NotAScale { .. } => 28,
            Refusal::ShareOutOfRange { .. } => 29,
            Refusal::ShareRises { .. } => 30,
            Refusal::Other { number, .. } => number,
        }
    }

    /// The second number: the line at fault, the length needed, or 0 where there is neither.
    ///
    /// ```
    /// use cession::Refusal;
    ///
    /// assert_eq!(Refusal::BufferTooShort { needed: 240 }.second(), 240);
    /// assert_eq!(Refusal::TooManyLosses { line: 4 }.second(), 4);
    /// assert_eq!(Refusal::EventsTooLong.second(), 0);
    /// ```
    pub fn second(&self) -> u64 {
        match *self {
            Refusal::TableTooLong | Refusal::NotAProgramme | Refusal::NotAStanding | Refusal::EventsTooLong => 0,
            Refusal::NotATableForm { line }
            | Refusal::TableNumberOutOfRange { line }
            | Refusal::TableOutOfOrder { line }
            | Refusal::BandsOverlap { line }
            | Refusal::NotAnEventForm { line }
            | Refusal::EventNumberOutOfRange { line }
            | Refusal::TooManyLosses { line }
            | Refusal::DayGoesBack { line }
            | Refusal::NoSuchTreaty { line }
            | Refusal::NotAScale { line }
            | Refusal::ShareOutOfRange { line }
            | Refusal::ShareRises { line } => line,
            Refusal::BufferTooShort { needed } => needed as u64,
            Refusal::Other { second, .. } => second,
        }
    }
}

const TABLE_ORDER: &str = "treaties with rising numbers come first, then up to 8 risk layers, then up to 8 cat layers";
const SCALE_RULE: &str = "a scale has a line (day D S) for each of the days 1 to 366, in order";
const SHARES_RULE: &str = "one for each of 366 days, from 0 to 10,000 and none above that of the day before";
const STANDING_RULE: &str = "a spent amount is above its layer's cap or belongs to no layer, a timed premium is above \
    its layer's amount premium or belongs to no layer with (time), or the day is after 366";

impl fmt::Display for Refusal {
    fn fmt(&self, f: &mut fmt::Formatter<'_>) -> fmt::Result {
        let of_table = |line| format!("line {line} of the treaty table");
        let of_events = |line| format!("line {line} of the events");
        let of_scale = |line| format!("line {line} of the scale");
        match *self {
            Refusal::TableTooLong => write!(f, "the treaty table is longer than 8,192 bytes"),
            Refusal::NotATableForm { line } => {
                write!(f, "{} is none of the forms quota, surplus, risk and cat", of_table(line))
            }
            Refusal::TableNumberOutOfRange { line } => write!(f, "{} has a number outside its range", of_table(line)),
            Refusal::TableOutOfOrder { line } => write!(f, "{} is out of order: {TABLE_ORDER}", of_table(line)),
            Refusal::BandsOverlap { line } => {
                write!(f, "{} has a layer that attaches below the end of the layer before it", of_table(line))
            }
            Refusal::NotAProgramme => write!(f, "the programme is not one that a treaty table can state"),
            Refusal::BufferTooShort { needed } => write!(f, "the text needs {needed} bytes, more than the buffer has"),
            Refusal::NotAStanding => write!(f, "the standing is not one of this programme: {STANDING_RULE}"),
            Refusal::EventsTooLong => write!(f, "the events are longer than 65,536 bytes"),
            Refusal::NotAnEventForm { line } => write!(f, "{} is not an event form", of_events(line)),
            Refusal::EventNumberOutOfRange { line } => write!(f, "{} has a number outside its range", of_events(line)),
            Refusal::TooManyLosses { line } => write!(f, "{} has more than 64 losses", of_events(line)),
            Refusal::DayGoesBack { line } => {
                write!(f, "{} has a day before that of the event before it", of_events(line))
            }
            Refusal::NoSuchTreaty { line } => {
                write!(f, "{} has a loss under a treaty that the treaty table does not have", of_events(line))
            }
            Refusal::NotAScale { line: 0 } => write!(f, "the shares are not those of a scale: {SHARES_RULE}"),
            Refusal::NotAScale { line } => write!(f, "{} is not that of a day: {SCALE_RULE}", of_scale(line)),
            Refusal::ShareOutOfRange { line } => write!(f, "{} has a share above 10,000", of_scale(line)),
            Refusal::ShareRises { line } => {
                write!(f, "{} has a share above that of the day before", of_scale(line))
            }
            Refusal::Other { number, second } => {
                write!(f, "the library refused with {number} and {second}, which this version does not know")
            }
        }
    }
}

impl Error for Refusal {}

//! The contracts of a table, and the calls that take them.

use crate::{raw, Refusal, Scale, Standing, Terms, Treaty, EVENTS_BYTES, TABLE_BYTES};

/// The contracts of a treaty table: proportional treaties, risk layers and catastrophe layers.
///
/// [`Programme::read`] gives one from a table text. One can also be made from its raw numbers: any may be lent, and
/// those that no table states are refused by the calls. The default is the programme without contracts.
///
/// ```
/// use cession::{raw, Programme, Refusal, Terms};
///
/// let mut layer = Terms { attachment: 50, limit: 100, placed: 9_000, ..Terms::default() };
/// let mut numbers = raw::Programme::default();
/// numbers.cat.places[0] = layer;
/// assert_eq!(Programme::from(numbers).open(), Err(Refusal::NotAProgramme));
///
/// numbers.cat.count = 1;
/// let text = Programme::from(numbers).write()?;
/// assert_eq!(text, b"(cat (band 50 100) (deduct 0) (back 0 0) (placed 9000))\n");
///
/// // The first reinstatement is free, the second charged in full.
/// (layer.reinstatements, layer.premium, layer.rates[1]) = (2, 1_000, 10_000);
/// numbers.cat.places[0] = layer;
/// let text = Programme::from(numbers).write()?;
/// assert_eq!(text, b"(cat (band 50 100) (deduct 0) (back 2 1000 0 10000) (placed 9000))\n");
///
/// // By amount and time.
/// numbers.cat.places[0].time = 1;
/// let text = Programme::from(numbers).write()?;
/// assert_eq!(text, b"(cat (band 50 100) (deduct 0) (back 2 1000 0 10000) (placed 9000) (time))\n");
/// # Ok::<(), Refusal>(())
/// ```
#[derive(Clone, Default, PartialEq, Eq, Debug)]
pub struct Programme(raw::Programme);

impl Programme {
    /// Reads a table text. An empty text is the programme without contracts.
    ///
    /// ```
    /// use cession::{Programme, Refusal};
    ///
    /// let programme = Programme::read(b"(quota 1 (cede 4000) (capacity 20000) (event 0))\n")?;
    /// assert_eq!(programme.treaties()[0].cede, 4_000);
    /// assert_eq!(Programme::read(b"(quota 1)\n"), Err(Refusal::NotATableForm { line: 1 }));
    /// # Ok::<(), Refusal>(())
    /// ```
    pub fn read(text: &[u8]) -> Result<Programme, Refusal> {
        // The text is valid for its length.
        let reading = unsafe { raw::cession_read(text.as_ptr(), text.len()) };
        accepted(reading.refusal, reading.line)?;
        Ok(Programme(reading.programme))
    }

    /// Writes the table text: the text that was read, if one was.
    ///
    /// ```
    /// let table = b"(surplus 2 (retain 10000) (lines 3) (event 0))\n";
    /// let programme = cession::Programme::read(table)?;
    /// assert_eq!(programme.write()?, table);
    /// # Ok::<(), cession::Refusal>(())
    /// ```
    pub fn write(&self) -> Result<Vec<u8>, Refusal> {
        owned(TABLE_BYTES, |buffer| self.write_into(buffer))
    }

    /// Writes the table text into a buffer and gives its length; the bytes past it are left as they were.
    ///
    /// ```
    /// use cession::{Programme, Refusal};
    ///
    /// let table = b"(surplus 2 (retain 10000) (lines 3) (event 0))\n";
    /// let programme = Programme::read(table)?;
    /// let mut buffer = [0; 100];
    /// let length = programme.write_into(&mut buffer)?;
    /// assert_eq!(&buffer[..length], table);
    /// let refusal = Refusal::BufferTooShort { needed: table.len() };
    /// assert_eq!(programme.write_into(&mut buffer[..20]), Err(refusal));
    /// # Ok::<(), Refusal>(())
    /// ```
    pub fn write_into(&self, buffer: &mut [u8]) -> Result<usize, Refusal> {
        // The buffer is valid for its length, and nothing else is lent.
        let answer = unsafe { raw::cession_write(self.0, buffer.as_mut_ptr(), buffer.len()) };
        accepted(answer.refusal, answer.number)
    }

    /// Opens a year: nothing spent, no day run.
    ///
    /// ```
    /// let programme = cession::Programme::read(b"(quota 1 (cede 4000) (capacity 0) (event 0))\n")?;
    /// assert_eq!(programme.open()?.day(), 0);
    /// # Ok::<(), cession::Refusal>(())
    /// ```
    pub fn open(&self) -> Result<Standing, Refusal> {
        // Nothing is lent by pointer.
        let opening = unsafe { raw::cession_open(self.0) };
        accepted(opening.refusal, opening.number)?;
        Ok(Standing(opening.standing))
    }

    /// Runs an events text, moves the standing on and gives the statement, however long it is.
    ///
    /// ```
    /// use cession::{Programme, Refusal};
    ///
    /// let programme = Programme::read(b"(quota 1 (cede 4000) (capacity 0) (event 0))\n")?;
    /// let mut standing = programme.open()?;
    /// let statement = programme.run(&mut standing, b"(event 40 (loss 1 101 101))\n")?;
    /// assert!(statement.starts_with(b"(event 40 (gross 101) (ceded 40) (risk 0) (cat 0) (net 61) (premium 0))\n"));
    ///
    /// let back = programme.run(&mut standing, b"(event 39)\n");
    /// assert_eq!(back, Err(Refusal::DayGoesBack { line: 1 }));
    /// assert_eq!(standing.day(), 40);
    /// # Ok::<(), Refusal>(())
    /// ```
    pub fn run(&self, standing: &mut Standing, events: &[u8]) -> Result<Vec<u8>, Refusal> {
        owned(EVENTS_BYTES, |buffer| self.run_into(standing, events, buffer))
    }

    /// Runs an events text, moves the standing on, writes the statement into a buffer and gives its length. A refused
    /// run leaves standing and buffer as they were.
    ///
    /// ```
    /// use cession::{Programme, Refusal};
    ///
    /// let programme = Programme::default();
    /// let mut standing = programme.open()?;
    /// let mut buffer = [0; 200];
    /// let short = programme.run_into(&mut standing, b"(event 9)\n", &mut buffer[..20]);
    /// assert_eq!(short, Err(Refusal::BufferTooShort { needed: 132 }));
    /// assert_eq!((standing.day(), buffer), (0, [0; 200]));
    ///
    /// let length = programme.run_into(&mut standing, b"(event 9)\n", &mut buffer)?;
    /// assert_eq!((standing.day(), length), (9, 132));
    /// # Ok::<(), Refusal>(())
    /// ```
    pub fn run_into(&self, standing: &mut Standing, events: &[u8], buffer: &mut [u8]) -> Result<usize, Refusal> {
        let (text, room) = (events.as_ptr(), buffer.as_mut_ptr());
        // Each is valid for its length, and what is lent to be changed overlaps with nothing.
        let answer =
            unsafe { raw::cession_run(self.0, &mut standing.0, text, events.len(), room, buffer.len()) };
        accepted(answer.refusal, answer.number)
    }

    /// Runs as [`Programme::run`] does, with premium by time charged at the shares of a scale. All runs of a year are
    /// lent one scale: the standing does not say which.
    ///
    /// ```
    /// use cession::{Programme, Refusal, Scale};
    ///
    /// let table = b"(cat (band 0 1000000) (deduct 0) (back 1 365000 10000) (placed 10000) (time))\n";
    /// let programme = Programme::read(table)?;
    /// let mut standing = programme.open()?;
    /// // Half of the limit costs half of 365,000; 182,500 x 6,667 / 10,000 is 121,672.75.
    /// let events = b"(event 184 (loss 0 500000 500000))\n";
    /// let statement = programme.run_scaled(&mut standing, &Scale::from([6_667; cession::DAYS]), events)?;
    /// assert!(statement.starts_with(b"(event 184 (gross 500000) (ceded 0) (risk 0) (cat 500000) (net 0) \
    ///     (premium 121673))\n"));
    /// # Ok::<(), Refusal>(())
    /// ```
    pub fn run_scaled(&self, standing: &mut Standing, scale: &Scale, events: &[u8]) -> Result<Vec<u8>, Refusal> {
        owned(EVENTS_BYTES, |buffer| self.run_scaled_into(standing, scale, events, buffer))
    }

    /// Runs as [`Programme::run_into`] does, with premium by time charged at the shares of a scale.
    ///
    /// ```
    /// use cession::{Programme, Refusal, Scale};
    ///
    /// let (programme, scale) = (Programme::default(), Scale::from([10_000; cession::DAYS]));
    /// let mut standing = programme.open()?;
    /// let mut buffer = [0; 200];
    /// let length = programme.run_scaled_into(&mut standing, &scale, b"(event 9)\n", &mut buffer)?;
    /// assert_eq!((standing.day(), length), (9, 132));
    ///
    /// let above = Scale::from([10_001; cession::DAYS]);
    /// let refused = programme.run_scaled_into(&mut standing, &above, b"(event 10)\n", &mut buffer);
    /// assert_eq!((refused, standing.day()), (Err(Refusal::NotAScale { line: 0 }), 9));
    /// # Ok::<(), Refusal>(())
    /// ```
    pub fn run_scaled_into(
        &self,
        standing: &mut Standing,
        scale: &Scale,
        events: &[u8],
        buffer: &mut [u8],
    ) -> Result<usize, Refusal> {
        let (shares, text, room) = (scale.0.shares.as_ptr(), events.as_ptr(), buffer.as_mut_ptr());
        let (days, length, size) = (scale.0.shares.len(), events.len(), buffer.len());
        // Each is valid for its length, and what is lent to be changed overlaps with nothing.
        let answer =
            unsafe { raw::cession_run_scaled(self.0, &mut standing.0, shares, days, text, length, room, size) };
        accepted(answer.refusal, answer.number)
    }

    /// The treaties in use, in the table's order; all places of a broken programme with a count above 8.
    ///
    /// ```
    /// let mut broken = cession::raw::Programme::default();
    /// broken.treaties.count = 9;
    /// assert_eq!(cession::Programme::from(broken).treaties().len(), 8);
    ///
    /// let programme = cession::Programme::read(b"(surplus 3 (retain 10000) (lines 4) (event 0))\n")?;
    /// let [treaty] = programme.treaties() else { panic!() };
    /// assert_eq!((treaty.number, treaty.retention, treaty.lines), (3, 10_000, 4));
    /// # Ok::<(), cession::Refusal>(())
    /// ```
    pub fn treaties(&self) -> &[Treaty] {
        in_use(&self.0.treaties.places, self.0.treaties.count)
    }

    /// The risk layers in use, in the table's order.
    ///
    /// ```
    /// let programme = cession::Programme::read(b"(risk (band 50 100) (deduct 7) (back 0 0) (placed 9000))\n")?;
    /// assert_eq!(programme.risk()[0].attachment, 50);
    /// assert!(programme.cat().is_empty());
    /// # Ok::<(), cession::Refusal>(())
    /// ```
    pub fn risk(&self) -> &[Terms] {
        in_use(&self.0.risk.places, self.0.risk.count)
    }

    /// The catastrophe layers in use, in the table's order.
    ///
    /// ```
    /// let programme = cession::Programme::read(b"(cat (band 50 100) (deduct 7) (back 0 0) (placed 9000))\n")?;
    /// assert_eq!(programme.cat()[0].deductible, 7);
    /// assert!(programme.risk().is_empty());
    /// # Ok::<(), cession::Refusal>(())
    /// ```
    pub fn cat(&self) -> &[Terms] {
        in_use(&self.0.cat.places, self.0.cat.count)
    }
}

/// Any numbers may be lent as a programme, also broken ones: the calls refuse them.
impl From<raw::Programme> for Programme {
    fn from(programme: raw::Programme) -> Self {
        Programme(programme)
    }
}

/// The numbers, to be changed or handed on.
impl From<Programme> for raw::Programme {
    fn from(programme: Programme) -> Self {
        programme.0
    }
}

/// The first `count` places; all of them for a count that a broken programme may have.
fn in_use<T>(places: &[T], count: usize) -> &[T] {
    places.get(..count).unwrap_or(places)
}

/// The number of an accepted call, or the refusal.
pub(crate) fn accepted(refusal: u64, number: u64) -> Result<usize, Refusal> {
    match refusal {
        0 => Ok(number as usize),
        _ => Err(Refusal::from_numbers(refusal, number)),
    }
}

/// The text that a call writes. It is lent a buffer of the first length and, where it tells that it needs more, one of
/// the length told: a refused call has changed nothing.
fn owned(first: usize, mut call: impl FnMut(&mut [u8]) -> Result<usize, Refusal>) -> Result<Vec<u8>, Refusal> {
    let mut text = vec![0; first];
    let mut answer = call(&mut text);
    if let Err(Refusal::BufferTooShort { needed }) = answer {
        text = vec![0; needed];
        answer = call(&mut text);
    }
    text.truncate(answer?);
    text.shrink_to_fit();
    Ok(text)
}

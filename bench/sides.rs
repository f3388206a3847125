// The two sides of the benchmark of runs: the engine through its C call, and the yardstick.
use crate::calculation;
use crate::raw;
use crate::yardstick::{self, Shares};

// Lent in every run: it holds the longest statement of all cases.
pub const ROOM: usize = 4 << 20;

// A table as each side takes it, and the shares of a scale, if one is lent to the engine.
pub struct Sides {
    engine: raw::Programme,
    yardstick: yardstick::Programme,
    scale: Option<Shares>,
}

// A year as each side keeps it.
#[derive(Default)]
pub struct Year {
    pub engine: raw::Standing,
    pub yardstick: yardstick::Standing,
}

pub struct Rooms {
    engine: Vec<u8>,
    yardstick: Vec<u8>,
}

impl Rooms {
    pub fn new() -> Rooms {
        Rooms { engine: vec![0; ROOM], yardstick: vec![0; ROOM] }
    }
}

impl Year {
    // The timed premiums of all layers.
    pub fn timed(&self) -> u64 {
        self.engine.risk_timed.iter().chain(&self.engine.cat_timed).sum()
    }

    fn is_same(&self) -> bool {
        let yardstick::Standing { risk, cat, day, risk_timed, cat_timed } = self.yardstick;
        self.engine == raw::Standing { risk, cat, day, risk_timed, cat_timed }
    }
}

impl Sides {
    pub fn new(table: &[u8]) -> Sides {
        let reading = unsafe { raw::cession_read(table.as_ptr(), table.len()) };
        assert_eq!(reading.refusal, 0, "{}", String::from_utf8_lossy(table));
        let second = calculation::read_table(table).expect("a table");
        Sides { engine: reading.programme, yardstick: yardstick::Programme::new(&second), scale: None }
    }

    // The same under the scale of a text.
    pub fn scaled(table: &[u8], scale: &[u8]) -> Sides {
        let reading = unsafe { raw::cession_read_scale(scale.as_ptr(), scale.len()) };
        assert_eq!(reading.refusal, 0, "{}", String::from_utf8_lossy(scale));
        Sides { scale: Some(reading.scale.shares), ..Sides::new(table) }
    }

    pub fn is_scaled(&self) -> bool {
        self.scale.is_some()
    }

    pub fn answer(&self, standing: &mut raw::Standing, events: &[u8], buffer: &mut [u8]) -> raw::Answer {
        let (text, size, room, length) = (events.as_ptr(), events.len(), buffer.as_mut_ptr(), buffer.len());
        let Some(shares) = &self.scale else {
            return unsafe { raw::cession_run(self.engine, standing, text, size, room, length) };
        };
        let (first, days) = (shares.as_ptr(), shares.len());
        unsafe { raw::cession_run_scaled(self.engine, standing, first, days, text, size, room, length) }
    }

    // A run of the engine's that is accepted; gives the statement's length.
    pub fn by_engine(&self, standing: &mut raw::Standing, events: &[u8], buffer: &mut [u8]) -> usize {
        let answer = self.answer(standing, events, buffer);
        assert_eq!(answer.refusal, 0, "the engine refuses a run");
        answer.number as usize
    }

    pub fn by_yardstick(&self, standing: &mut yardstick::Standing, events: &[u8], buffer: &mut [u8]) -> usize {
        let shares = self.scale.as_ref().unwrap_or(&yardstick::BUILT_IN);
        yardstick::run(&self.yardstick, standing, shares, events, buffer)
    }

    // Whether some layer has been brought losses and is below its cap.
    pub fn has_partly_spent(&self, year: &Year) -> bool {
        let cap = |terms: &raw::Terms| terms.deductible + terms.limit * (terms.reinstatements + 1);
        let tiers = [(&self.engine.risk, &year.engine.risk), (&self.engine.cat, &year.engine.cat)];
        let mut layers = tiers.iter().flat_map(|(layers, spent)| layers.places.iter().zip(*spent));
        layers.any(|(terms, spent)| *spent > 0 && *spent < cap(terms))
    }

    // Makes the engine's programme one that no table reads to, so that runs are refused with 6.
    pub fn spoil(&mut self) {
        self.engine.cat.count = 9;
    }

    // Runs events on both sides and fails where statement or standing differ; gives the statement.
    pub fn compare<'a>(&self, year: &mut Year, events: &[u8], rooms: &'a mut Rooms) -> &'a [u8] {
        let ours = self.by_engine(&mut year.engine, events, &mut rooms.engine);
        let theirs = self.by_yardstick(&mut year.yardstick, events, &mut rooms.yardstick);
        let (ours, theirs) = (&rooms.engine[..ours], &rooms.yardstick[..theirs]);
        assert!(ours == theirs, "the statements differ for\n{}", String::from_utf8_lossy(events));
        assert!(year.is_same(), "the standings differ for\n{}", String::from_utf8_lossy(events));
        ours
    }
}

// Random years that are accepted, run on both sides, and what they have reached.
use crate::draw::{self, Table};
use crate::random::Random;
use crate::scales;
use crate::sides::{Rooms, Sides, Year};
use crate::totals::totals;

const SEED: u64 = 20_261_116;
const YEARS: usize = 1_000;
const SCALES: [u64; 6] = [100, 10_000, 1_000_000, 1_000_000_000, 1_000_000_000_000, draw::LARGEST_AMOUNT];

// In how many of the runs compared something was above 0, a layer came to its cap, began partly spent, or was charged
// by time, and of these in how many under a scale.
#[derive(Default)]
struct Reached {
    runs: usize,
    ceded: usize,
    risk: usize,
    cat: usize,
    premium: usize,
    caps: usize,
    second_runs: usize,
    partly_spent: usize,
    timed: usize,
    scaled: usize,
}

impl Reached {
    fn count(&mut self, statement: &[u8], is_second: bool, begins_partly_spent: bool) {
        let amounts = totals(statement).expect("a total");
        self.runs += 1;
        self.ceded += usize::from(amounts[1] > 0);
        self.risk += usize::from(amounts[2] > 0);
        self.cat += usize::from(amounts[3] > 0);
        self.premium += usize::from(amounts[5] > 0);
        self.caps += usize::from(has_cap_reached(statement));
        self.second_runs += usize::from(is_second);
        self.partly_spent += usize::from(begins_partly_spent);
    }

    fn print(&self) {
        let named = [
            ("runs", self.runs),
            ("ceded", self.ceded),
            ("risk", self.risk),
            ("cat", self.cat),
            ("premium", self.premium),
            ("a layer at its cap", self.caps),
            ("second runs", self.second_runs),
            ("layers partly spent before them", self.partly_spent),
            ("layers charged by time", self.timed),
            ("under a scale", self.scaled),
        ];
        for (name, count) in named {
            assert!(count > 0, "no random year reached: {name}");
        }
        let counts: Vec<String> = named.iter().map(|(name, count)| format!("{name} {count}")).collect();
        println!("the same bytes and standings in {YEARS} random years: {}", counts.join(", "));
    }
}

// A layer at its cap has no cover left.
pub fn has_cap_reached(statement: &[u8]) -> bool {
    statement.windows(9).any(|bytes| bytes == b"(cover 0)")
}

fn draw_table(random: &mut Random, scale: u64) -> Table {
    match random.one_in(10) {
        true => draw::largest_table(random),
        false => draw::table(random, scale),
    }
}

// A table's sides, half of them under a scale that is drawn.
fn draw_sides(random: &mut Random, table: &Table) -> Sides {
    let text = table.lines.concat();
    if random.one_in(2) {
        return Sides::new(&text);
    }
    let kind = random.place(scales::KINDS.len());
    let shares = scales::shares(random, kind);
    Sides::scaled(&text, &scales::lines(&shares).concat())
}

fn compare_year(random: &mut Random, rooms: &mut Rooms, reached: &mut Reached) {
    let scale = random.pick(&SCALES);
    let table = draw_table(random, scale);
    let sides = draw_sides(random, &table);
    let mut year = Year::default();
    for run in 1..=random.between(1, 3) {
        let (count, pause) = (random.pick(&[0, 1, 2, 3, 5, 8, 13, 21]), random.between(0, 40));
        let first_day = (year.engine.day + pause).clamp(1, 366);
        let events = draw::events(random, scale, &table, count, first_day).concat();
        let (begins_partly_spent, timed) = (sides.has_partly_spent(&year), year.timed());
        let statement = sides.compare(&mut year, &events, rooms);
        reached.count(statement, run > 1, begins_partly_spent);
        let is_charged = year.timed() > timed;
        reached.timed += usize::from(is_charged);
        reached.scaled += usize::from(is_charged && sides.is_scaled());
    }
}

pub fn compare_years() {
    let (mut random, mut rooms, mut reached) = (Random(SEED), Rooms::new(), Reached::default());
    (0..YEARS).for_each(|_| compare_year(&mut random, &mut rooms, &mut reached));
    reached.print();
}

//! The cases in turn: years that are accepted, the ends of every range, texts at their greatest length, and damage.

use crate::calculation::table::TABLE_BYTES;
use crate::calculation::EVENTS_BYTES;
use crate::damage::{self, Fault, NEARLY_FEEDS};
use crate::draw::{self, line, Lines, Table, LARGEST_RATE, MOST_RATES};
use crate::printed::printed;
use crate::random::Random;
use crate::table_damage::{self, MISPLACED, MISRATED, MISTIMED};
use crate::totals::{has_all, totals};

/// What stands under the name programme.txt.
pub enum File {
    Text(Vec<u8>),
    Missing,
    Folder,
}

pub struct Case {
    pub file: File,
    pub events: Vec<u8>,
}

impl Case {
    pub fn table(&self) -> Option<&[u8]> {
        match &self.file {
            File::Text(text) => Some(text),
            File::Missing | File::Folder => None,
        }
    }

    pub fn expected(&self) -> Vec<u8> {
        printed(self.table(), &self.events)
    }
}

fn text_case(table: &Lines, events: &Lines) -> Case {
    Case { file: File::Text(table.concat()), events: events.concat() }
}

/// A form, and the same with one number at or past an end of its range.
struct Edge {
    form: &'static str,
    text: Vec<u8>,
}

const FORMS: [&str; 5] = [
    "(quota 3 (cede 4000) (capacity 20000) (event 15000))",
    "(surplus 3 (retain 10000) (lines 3) (event 30000))",
    "(risk (band 500 1000) (deduct 300) (back 2 250 0 10000) (placed 7200))",
    "(cat (band 2000 9000) (deduct 100) (back 3 777 5000 1 12345) (placed 3333) (time))",
    "(event 40 (loss 3 12000 11000))",
];

/// The last two values of each number have sixteen digits and seventeen. A layer's K comes a second time with as many
/// rates as it says.
fn edges() -> Vec<Edge> {
    let mut edges = Vec::new();
    for form in FORMS {
        for (number, (low, high)) in damage::ranges(form.as_bytes()).into_iter().enumerate() {
            let values = [low.saturating_sub(1), low, high, high + 1, 9_999_999_999_999_999, 10_000_000_000_000_000];
            edges.extend(values.map(|value| {
                let mut text = line(form.to_string());
                damage::replace_number(&mut text, number, value.to_string().as_bytes());
                Edge { form, text }
            }));
        }
    }
    for form in [FORMS[2], FORMS[3]] {
        edges.extend([0, 1, MOST_RATES, MOST_RATES + 1].map(|count| {
            let rates: Vec<u64> = (0..count).map(|place| 7_201 * place % (LARGEST_RATE + 1)).collect();
            let mut text = line(form.to_string());
            table_damage::set_rates(&mut text, count, &rates);
            Edge { form, text }
        }));
    }
    edges
}

pub struct Cases {
    random: Random,
    made: usize,
    round: usize,
    edges: Vec<Edge>,
    next_edge: usize,
}

impl Cases {
    pub fn new(seed: u64) -> Self {
        let mut random = Random(seed);
        let edges = edges();
        let next_edge = random.place(edges.len());
        Cases { random, made: 0, round: 0, edges, next_edge }
    }

    /// Every case of fifty in turn, so that each kind comes again and again.
    pub fn next(&mut self) -> Case {
        self.made += 1;
        self.round = self.made / 50;
        match self.made % 50 {
            1 => self.damaged_table(damage::form),
            2 => self.damaged_table(damage::range),
            3 => self.damaged_table(table_damage::order),
            4 => self.damaged_table(table_damage::band),
            5 => self.damaged_table(table_damage::table_line),
            6 => self.damaged_table(damage::line_ends),
            7 => self.damaged_table(damage::bytes),
            8 => self.damaged_events(damage::form),
            9 => self.damaged_events(damage::range),
            10 => self.damaged_events(damage::count),
            11 => self.damaged_events(damage::day),
            12 => self.damaged_events(damage::treaty),
            13 | 14 => self.damaged_events(damage::events_line),
            15 => self.damaged_events(damage::line_ends),
            16 => self.damaged_events(damage::bytes),
            17..=21 => self.edge(),
            22 => self.full_events(),
            23 => self.full_statement(),
            24 => self.full_table(),
            25 => self.without(),
            26 => self.largest(),
            27 => self.damaged_table(table_damage::ninth),
            28 => self.misplaced(),
            29 => self.misended(false),
            30 => self.misended(true),
            31 => self.misrated(),
            32 => self.mistimed(),
            _ => self.year(),
        }
    }

    fn scale(&mut self) -> u64 {
        self.random.pick(&[3, 100, 10_000, 10_000, 1_000_000, 1_000_000_000, 1_000_000_000_000, draw::LARGEST_AMOUNT])
    }

    fn draw(&mut self, events: usize) -> (Table, Lines) {
        let scale = self.scale();
        let table = draw::table(&mut self.random, scale);
        let first_day = self.random.pick(&[1, 30, 90, 147, 365, 366]);
        let events = draw::events(&mut self.random, scale, &table, events, first_day);
        (table, events)
    }

    /// A year that is accepted; one with cessions, recoveries of both tiers and premium if one comes up soon.
    pub fn year(&mut self) -> Case {
        let mut tries = 12;
        loop {
            let count = self.random.pick(&[1, 2, 3, 5, 8, 13, 21]);
            let (table, events) = self.draw(count);
            let case = text_case(&table.lines, &events);
            tries -= 1;
            if tries == 0 || totals(&case.expected()).is_some_and(|amounts| has_all(&amounts)) {
                return case;
            }
        }
    }

    /// A fault in some line of the table, at times with others of any kind, and at times with events at fault too.
    fn damaged_table(&mut self, fault: Fault) -> Case {
        let (table, mut events) = self.draw(3);
        let mut lines = table.lines;
        let others = [
            damage::form,
            damage::range,
            table_damage::order,
            table_damage::band,
            table_damage::rates,
            table_damage::time,
            damage::bytes,
        ];
        self.damage(&mut lines, fault, &others);
        if self.round % 4 == 1 {
            self.damage(&mut events, damage::form, &[damage::bytes]);
        }
        text_case(&lines, &events)
    }

    /// A table with a line behind one of a later kind, and no other fault; each pair of kinds in turn.
    fn misplaced(&mut self) -> Case {
        let (table, events) = self.draw(2);
        let mut lines = table.lines;
        let (kind, later) = MISPLACED[self.round % MISPLACED.len()];
        table_damage::misplace(&mut self.random, &mut lines, kind, later);
        text_case(&lines, &events)
    }

    /// A table with a layer whose K or rates are wrong, and no other fault; each way in turn.
    fn misrated(&mut self) -> Case {
        let (table, events) = self.draw(2);
        let mut lines = table.lines;
        table_damage::misrate(&mut self.random, &mut lines, self.round % MISRATED.len());
        text_case(&lines, &events)
    }

    /// A table with `(time)` out of its form, and no other fault; each way in turn.
    fn mistimed(&mut self) -> Case {
        let (table, events) = self.draw(2);
        let mut lines = table.lines;
        table_damage::mistime(&mut self.random, &mut lines, self.round % MISTIMED.len());
        text_case(&lines, &events)
    }

    /// A line of the events, or of the table, that does not end with one line feed, each way in turn; no other fault.
    fn misended(&mut self, in_table: bool) -> Case {
        let (mut lines, mut events) = self.draw_lines();
        let text = if in_table { &mut lines } else { &mut events };
        let nearly = self.round % (NEARLY_FEEDS.len() + 1);
        let place = if nearly < NEARLY_FEEDS.len() { self.random.place(text.len()) } else { 0 };
        damage::end_otherwise(&mut text[place], nearly);
        text_case(&lines, &events)
    }

    /// The lines of a table of two lines or more, and those of events.
    fn draw_lines(&mut self) -> (Lines, Lines) {
        loop {
            let (table, events) = self.draw(3);
            if table.lines.len() >= 2 {
                return (table.lines, events);
            }
        }
    }

    fn damaged_events(&mut self, fault: Fault) -> Case {
        let (table, mut events) = self.draw(7);
        let others = [damage::form, damage::range, damage::count, damage::day, damage::treaty];
        self.damage(&mut events, fault, &others);
        text_case(&table.lines, &events)
    }

    /// One fault, and in every second round at times others on the same line or on another, above it or below.
    fn damage(&mut self, lines: &mut Lines, fault: Fault, others: &[Fault]) {
        if lines.is_empty() {
            lines.push(Vec::new());
        }
        let alone = self.round % 2 == 0;
        let place = self.random.place(lines.len());
        if !alone && self.random.one_in(3) {
            self.random.pick(others)(&mut self.random, lines, place);
        }
        let place = place.min(lines.len() - 1);
        fault(&mut self.random, lines, place);
        while !alone && self.random.one_in(2) {
            let place = self.random.place(lines.len());
            self.random.pick(others)(&mut self.random, lines, place);
        }
    }

    /// The next edge in turn, in a table that has one line of each other kind.
    fn edge(&mut self) -> Case {
        let Edge { form, text } = &self.edges[self.next_edge];
        self.next_edge = (self.next_edge + 1) % self.edges.len();
        let treaty = if *form == FORMS[1] { FORMS[1] } else { FORMS[0] };
        let of_form = |other: &str| if other == *form { text.clone() } else { line(other.to_string()) };
        let mut table: Lines = [treaty, FORMS[2], FORMS[3], FORMS[4]].map(of_form).to_vec();
        let mut event = table.pop().unwrap_or_default();
        if *form == treaty {
            let number = damage::number_at(&table[0], 0).clamp(1, 8);
            damage::replace_number(&mut event, 1, number.to_string().as_bytes());
        }
        text_case(&table, &vec![event])
    }

    /// An events text of 65,536 bytes, or one more or fewer.
    fn full_events(&mut self) -> Case {
        let scale = self.scale();
        let table = draw::table(&mut self.random, scale);
        let size = EVENTS_BYTES - 1 + self.round % 3;
        let day = self.random.between(100, 366);
        let mut events = draw::full_events(&mut self.random, scale, &table, size, day);
        if self.random.one_in(5) {
            events[0] = b'x';
        }
        Case { file: File::Text(table.lines.concat()), events }
    }

    /// A statement of 65,536 bytes, one more or fewer, or many more: events without a loss, some with a longer day.
    fn full_statement(&mut self) -> Case {
        let scale = self.scale();
        let table = draw::table(&mut self.random, scale).lines.concat();
        let events = if self.round % 4 == 3 {
            b"(event 1)\n".repeat(self.random.place(EVENTS_BYTES / 10))
        } else {
            let size = EVENTS_BYTES - 1 + self.round % 4;
            let rest = printed(Some(&table), b"").len();
            let each = printed(Some(&table), b"(event 1)\n").len() - rest;
            let longer = (size - rest) % each;
            let shorter = (size - rest) / each - longer;
            [b"(event 1)\n".repeat(shorter), b"(event 10)\n".repeat(longer)].concat()
        };
        Case { file: File::Text(table), events }
    }

    /// A table text of 8,192 bytes, or one more or fewer.
    fn full_table(&mut self) -> Case {
        let size = TABLE_BYTES - 1 + self.round % 3;
        let (table, events) = self.draw(2);
        let mut text = table.lines.concat();
        if self.random.one_in(2) {
            text = text.repeat(TABLE_BYTES / text.len().max(1) + 1);
        }
        text.resize(size, self.random.pick(b"x\n)"));
        Case { file: File::Text(text), events: events.concat() }
    }

    /// Texts that are empty, a table that is not there, and a folder in its place.
    fn without(&mut self) -> Case {
        let (table, events) = self.draw(2);
        match self.round % 5 {
            0 => Case { file: File::Missing, events: events.concat() },
            1 => Case { file: File::Folder, events: events.concat() },
            2 => text_case(&table.lines, &Lines::new()),
            3 => text_case(&Lines::new(), &events),
            _ => text_case(&Lines::new(), &Lines::new()),
        }
    }

    fn largest(&mut self) -> Case {
        let table = draw::largest_table(&mut self.random);
        let events = draw::largest_events(&mut self.random, 24, 1);
        text_case(&table.lines, &events)
    }
}

//! Random tables and events that are accepted.

use crate::random::Random;

/// Lines of a text, each with its line feed.
pub type Lines = Vec<Vec<u8>>;

pub const LARGEST_AMOUNT: u64 = 10_000_000_000_000;
const LARGEST_PREMIUM: u64 = 1_000_000_000_000;
const LARGEST_DEDUCTIBLE: u64 = 1_000_000_000_000_000;
pub const LARGEST_RATE: u64 = 20_000;
pub const MOST_RATES: u64 = 20;
const SHARES: [u64; 10] = [0, 1, 3_333, 5_000, 6_667, 7_200, 7_201, 8_000, 9_999, 10_000];

/// A table under way: its lines, its treaties, the amounts at which its terms change the result, and losses (treaty,
/// estimated maximum loss, amount) of which just the event limit is ceded, or half a cent beside whole ones.
#[derive(Default)]
pub struct Table {
    pub lines: Lines,
    pub treaties: Vec<u64>,
    marks: Vec<u64>,
    reaching: Vec<[u64; 3]>,
    halving: Vec<[u64; 3]>,
}

impl Table {
    /// Keeps a loss of which just the limit is ceded, where there is a limit and the loss is in range.
    fn reach(&mut self, limit: u64, loss: [u64; 3]) {
        if limit > 0 && loss.iter().all(|number| *number <= LARGEST_AMOUNT) {
            self.reaching.push(loss);
        }
    }

    /// Keeps a loss of which half a cent is ceded beside whole ones, where `parts` of `whole` are ceded: the first of
    /// a few small amounts that comes to one, if the loss is in range.
    fn halve(&mut self, number: u64, maximum: u64, parts: u64, whole: u64) {
        let is_half = |amount: &u64| 2 * (amount * parts % whole) == whole;
        if let Some(amount) = [1, 3, 10, 5_000, 10_000].into_iter().find(is_half) {
            if (1..=LARGEST_AMOUNT).contains(&maximum) {
                self.halving.push([number, maximum, amount]);
            }
        }
    }
}

pub fn line(text: String) -> Vec<u8> {
    let mut line = text.into_bytes();
    line.push(b'\n');
    line
}

/// An amount that has to do with a scale: an end of the range, the scale and its neighbours, below and above it.
fn near(random: &mut Random, scale: u64) -> u64 {
    let amount = match random.between(0, 8) {
        0 => random.pick(&[0, 1, LARGEST_AMOUNT]).min(scale.max(1)),
        1 => scale,
        2 => scale + 1,
        3 => scale.saturating_sub(1),
        4 => scale / random.between(1, 9),
        5 => random.between(0, 3 * scale),
        _ => random.between(0, scale),
    };
    amount.min(LARGEST_AMOUNT)
}

fn none_or(random: &mut Random, amount: u64) -> u64 {
    if random.one_in(2) {
        0
    } else {
        amount
    }
}

fn share(random: &mut Random) -> u64 {
    if random.one_in(4) {
        random.between(0, 10_000)
    } else {
        random.pick(&SHARES)
    }
}

fn quota(random: &mut Random, number: u64, scale: u64, table: &mut Table) {
    let cede = share(random);
    let capacity = near(random, scale);
    let capacity = none_or(random, capacity);
    let limit = near(random, scale);
    let limit = none_or(random, limit);
    if cede > 0 {
        table.reach(limit, [number, 1, (limit * 10_000).div_ceil(cede)]);
    }
    table.halve(number, capacity.max(1), cede, 10_000);
    if capacity > 0 {
        // Half of the share is ceded where the estimated maximum loss is twice the capacity.
        table.halve(number, 2 * capacity, cede, 20_000);
    }
    table.marks.extend([capacity, limit]);
    table.lines.push(line(format!("(quota {number} (cede {cede}) (capacity {capacity}) (event {limit}))")));
}

fn surplus(random: &mut Random, number: u64, scale: u64, table: &mut Table) {
    let retention = near(random, scale / 3);
    let lines = random.pick(&[0, 1, 2, 3, 9, 100]);
    let limit = near(random, scale);
    let limit = none_or(random, limit);
    if retention > 0 && lines > 0 {
        // Half of a loss is ceded where its estimated maximum loss is twice the retention.
        table.reach(limit, [number, 2 * retention, 2 * limit]);
        table.halve(number, 2 * retention, 1, 2);
    }
    if lines > 1 {
        // And where it is twice the retention times the lines.
        table.halve(number, 2 * retention * lines, 1, 2);
    }
    table.marks.extend([retention, retention * (1 + lines), limit]);
    table.lines.push(line(format!("(surplus {number} (retain {retention}) (lines {lines}) (event {limit}))")));
}

/// The rate of one reinstatement.
fn rate(random: &mut Random) -> u64 {
    if random.one_in(3) {
        return random.between(0, LARGEST_RATE);
    }
    random.pick(&[0, 0, 1, 3_333, 5_000, 7_201, 10_000, 12_345, 19_999, LARGEST_RATE])
}

/// The rates of so many reinstatements: all of them different, halves and wholes, each drawn by itself, or seldom one
/// rate for all.
fn rates(random: &mut Random, count: u64) -> Vec<u64> {
    let (first, step) = (rate(random), random.pick(&[1, 7, 1_000, 7_201, LARGEST_RATE]));
    match random.between(0, 8) {
        0 => vec![first; count as usize],
        1..=3 => (0..count).map(|place| (first + place * step) % (LARGEST_RATE + 1)).collect(),
        4 | 5 => (0..count).map(|_| 5_000 * random.between(0, 4)).collect(),
        _ => (0..count).map(|_| rate(random)).collect(),
    }
}

/// A premium; one of just the limit makes half cents of half rates.
fn premium(random: &mut Random, limit: u64) -> u64 {
    let premium = match random.between(0, 8) {
        0 => LARGEST_PREMIUM,
        1 | 2 => limit,
        _ => near(random, limit / 4 + 1),
    };
    premium.min(LARGEST_PREMIUM)
}

/// Premium and rates of so many reinstatements. Of layers with `(time)` some charge 5,000 cents for every cent of the
/// limit, of which odd time shares make half cents.
fn charged(random: &mut Random, limit: u64, count: u64, is_timed: bool) -> (u64, Vec<u64>) {
    if is_timed && limit <= LARGEST_PREMIUM / 5_000 && random.one_in(3) {
        return (5_000 * limit, vec![10_000; count as usize]);
    }
    let rates = rates(random, count);
    (premium(random, limit), rates)
}

/// Reinstatements, premium and rates, as a layer's line has them.
pub fn back(premium: u64, rates: &[u64]) -> String {
    let listed: String = rates.iter().map(|rate| format!(" {rate}")).collect();
    format!("(back {} {premium}{listed})", rates.len())
}

/// What stands after a layer's placed share: for one layer in so many, that premium is by amount and time.
fn time(random: &mut Random, one_in: u64) -> &'static str {
    if random.one_in(one_in) {
        " (time)"
    } else {
        ""
    }
}

fn layer(random: &mut Random, tier: &str, attachment: u64, limit: u64, table: &mut Table) {
    let deductible = random.pick(&[0, 0, limit / 3, limit, 2 * limit + 1, LARGEST_DEDUCTIBLE / 2]);
    let deductible = if random.one_in(40) { LARGEST_DEDUCTIBLE } else { deductible.min(LARGEST_DEDUCTIBLE) };
    let any = random.between(0, MOST_RATES);
    let count = random.pick(&[0, 1, 1, 2, 2, 3, MOST_RATES, MOST_RATES, any]);
    let time = time(random, 3);
    let (premium, rates) = charged(random, limit, count, !time.is_empty());
    let placed = share(random);
    table.marks.extend([attachment, attachment + limit]);
    let terms = format!("(deduct {deductible}) {} (placed {placed}){time}", back(premium, &rates));
    table.lines.push(line(format!("({tier} (band {attachment} {limit}) {terms})")));
}

/// Layers whose bands follow one another, half of them without a gap.
fn tier(random: &mut Random, tier: &str, scale: u64, table: &mut Table) {
    let mut attachment = near(random, scale / 4);
    for _ in 0..random.pick(&[0, 1, 2, 3, 4, 8]) {
        let limit = near(random, scale / 2).max(1);
        if attachment > LARGEST_AMOUNT {
            return;
        }
        layer(random, tier, attachment, limit, table);
        let gap = near(random, scale / 3).max(1);
        attachment += limit + none_or(random, gap);
    }
}

/// A table with amounts about a scale.
pub fn table(random: &mut Random, scale: u64) -> Table {
    let mut table = Table::default();
    let rare = random.between(1, 4);
    for number in 1..=8 {
        if random.one_in(rare) {
            table.treaties.push(number);
            match random.one_in(2) {
                true => quota(random, number, scale, &mut table),
                false => surplus(random, number, scale, &mut table),
            }
        }
    }
    tier(random, "risk", scale, &mut table);
    let event_scale = scale * random.between(1, 3);
    tier(random, "cat", event_scale, &mut table);
    table
}

/// An amount about a scale, often at a mark of the table or beside it.
fn amount(random: &mut Random, scale: u64, table: &Table) -> u64 {
    if table.marks.is_empty() || !random.one_in(3) {
        return near(random, scale);
    }
    let mark = random.pick(&table.marks) + random.pick(&[0, 0, 1, 2]);
    mark.saturating_sub(random.pick(&[0, 1])).min(LARGEST_AMOUNT)
}

/// The numbers of a loss, most of them under one of the table's treaties.
fn loss(random: &mut Random, scale: u64, table: &Table) -> [u64; 3] {
    for aimed in [&table.reaching, &table.halving] {
        if !aimed.is_empty() && random.one_in(9) {
            return random.pick(aimed);
        }
    }
    let treaty = if table.treaties.is_empty() || random.one_in(4) { 0 } else { random.pick(&table.treaties) };
    [treaty, amount(random, scale, table).max(1), amount(random, scale, table)]
}

/// So many loss forms, each after a space.
pub fn losses(random: &mut Random, scale: u64, table: &Table, count: usize) -> String {
    let mut forms = String::new();
    for _ in 0..count {
        let [treaty, most, loss] = loss(random, scale, table);
        forms += &format!(" (loss {treaty} {most} {loss})");
    }
    forms
}

/// So many events, days from a first one to the year's last.
pub fn events(random: &mut Random, scale: u64, table: &Table, count: usize, first_day: u64) -> Lines {
    let mut day = first_day;
    let mut lines = Lines::new();
    for _ in 0..count {
        let count = random.pick(&[0, 1, 1, 2, 3, 5, 9, 20, 63, 64]);
        let losses = losses(random, scale, table, count);
        lines.push(line(format!("(event {day}{losses})")));
        // After 73 days from day 1 a fifth of the year has gone: a time share that is not rounded.
        day = (day + random.pick(&[0, 0, 1, 7, 40, 73])).min(366);
    }
    lines
}

/// An events text of so many bytes, nearly all of it in events of 64 losses, on a day of three digits.
pub fn full_events(random: &mut Random, scale: u64, table: &Table, size: usize, day: u64) -> Vec<u8> {
    let mut events = Vec::new();
    while events.len() + 3_000 < size {
        let losses = losses(random, scale, table, 64);
        events.extend(line(format!("(event {day}{losses})")));
    }
    while events.len() + 51 < size {
        events.extend(line(format!("(event {day})")));
    }
    let digits = (size - events.len() - 23) as u32;
    let (most, loss) = (10_u64.pow(digits / 2 - 1), 10_u64.pow(digits - digits / 2 - 1));
    events.extend(line(format!("(event {day} (loss 0 {most} {loss}))")));
    events
}

/// A table of one treaty and one layer in each tier at the ends of their ranges.
pub fn largest_table(random: &mut Random) -> Table {
    let mut table = Table { treaties: vec![8], ..Table::default() };
    let cede = random.pick(&[1, 9_999]);
    let limit = random.pick(&[0, 1, LARGEST_AMOUNT - 1, LARGEST_AMOUNT]);
    table.lines.push(line(format!("(quota 8 (cede {cede}) (capacity 9999999999999) (event {limit}))")));
    for tier in ["risk", "cat"] {
        let attachment = random.pick(&[0, 1, LARGEST_AMOUNT / 2, LARGEST_AMOUNT]);
        let limit = random.pick(&[1, LARGEST_AMOUNT - 1, LARGEST_AMOUNT]);
        let deductible = random.pick(&[0, LARGEST_AMOUNT, LARGEST_DEDUCTIBLE]);
        let count = random.pick(&[MOST_RATES - 1, MOST_RATES]);
        let rates: Vec<u64> = (0..count).map(|_| random.pick(&[LARGEST_RATE - 1, LARGEST_RATE])).collect();
        let premium = random.pick(&[LARGEST_PREMIUM - 1, LARGEST_PREMIUM]);
        let placed = random.pick(&[9_999, 10_000]);
        let time = time(random, 2);
        let terms = format!("(deduct {deductible}) {} (placed {placed}){time}", back(premium, &rates));
        table.lines.push(line(format!("({tier} (band {attachment} {limit}) {terms})")));
    }
    table
}

/// So many events of 64 losses as large as they can be, on days that follow one another.
pub fn largest_events(random: &mut Random, count: u64, first_day: u64) -> Lines {
    let most = random.pick(&[1, LARGEST_AMOUNT]);
    let mut form = || format!(" (loss {} {most} {LARGEST_AMOUNT})", random.pick(&[0, 0, 8]));
    let forms: String = (0..64).map(|_| form()).collect();
    (0..count).map(|day| line(format!("(event {}{forms})", (first_day + day).min(366)))).collect()
}

//! Events dealt to other days: document 02, Q-13. Loss lists are dealt twice, and each dealing is held to what a year
//! comes to by the lists alone.

use crate::accepted::tier;
use crate::boundary;
use crate::calculation::dealing::{counted, Figures, Lists, Year};
use crate::calculation::events::read_events;
use crate::calculation::read_table;
use crate::calculation::table::{Layer, Programme};
use crate::dealings::Dealings;
use crate::dealt::{Dealt, Left};
use crate::draw::{self, Table};
use crate::history::Difference;
use crate::random::Random;
use crate::raw;
use crate::runs::SCALES;
use crate::scales::{self, DAYS, WHOLE};
use crate::show::shown;

/// The whole share for every day: with it a premium by time is the amount premium.
const WHOLE_SHARES: [u64; DAYS as usize] = [WHOLE; DAYS as usize];

/// Whether a table has risk layers, and cat layers. One without layers comes up less often.
const TIERS: [(bool, bool); 7] =
    [(false, true), (true, true), (true, false), (false, true), (true, true), (true, false), (false, false)];

/// A table that has risk layers or not, and cat layers or not, as is wanted.
fn table(random: &mut Random, scale: u64, wants_risk: bool, wants_cat: bool) -> Table {
    let has = |table: &Table, word: &[u8]| table.lines.iter().any(|line| line.starts_with(word));
    loop {
        let mut table = draw::table(random, scale);
        table.lines.retain(|line| wants_risk || !line.starts_with(b"(risk"));
        table.lines.retain(|line| wants_cat || !line.starts_with(b"(cat"));
        if has(&table, b"(risk") == wants_risk && has(&table, b"(cat") == wants_cat {
            return table;
        }
    }
}

/// Loss lists, each as the loss forms of an event: one to eight, some of them empty or an earlier one again.
fn forms(random: &mut Random, scale: u64, table: &Table) -> Vec<String> {
    let mut lists: Vec<String> = Vec::new();
    for _ in 0..random.between(1, 8) {
        let count = random.pick(&[0, 1, 1, 1, 2, 2, 3, 5, 9]);
        let is_again = !lists.is_empty() && random.one_in(6);
        let list = match is_again {
            true => lists[random.place(lists.len())].clone(),
            false => draw::losses(random, scale, table, count),
        };
        lists.push(list);
    }
    lists
}

/// The shares that a dealing is lent, or none for the built-in ones.
fn shares(random: &mut Random) -> Option<Vec<u64>> {
    let kind = random.pick(&[0, 0, 1, 2, 2, 3, 4]);
    (kind > 0 || random.one_in(2)).then(|| scales::shares(random, kind))
}

/// A table and loss lists, and what a year comes to by them.
pub struct Drawn {
    table: Vec<u8>,
    record: raw::Programme,
    pub programme: Programme,
    forms: Vec<String>,
    pub lists: Lists,
    pub year: Year,
}

/// A dealing that was made.
pub struct Made {
    pub dealt: Dealt,
    pub left: Left,
}

fn equal(name: &str, found: u64, expected: u64) -> Result<(), String> {
    if found == expected {
        return Ok(());
    }
    Err(format!("of dealt lists, {name}: found {found}, expected {expected}"))
}

/// Holds the layers of a tier to the year's figures, the premium of a line where it is the amount premium.
fn check_tier(
    tier: &[Layer],
    figures: &[Figures],
    spent: &[u64],
    lines: &[Vec<u64>],
    is_whole: bool,
) -> Result<(), String> {
    equal("lines of a tier", lines.len() as u64, tier.len() as u64)?;
    for (place, layer) in tier.iter().enumerate() {
        let (figures, line) = (&figures[place], &lines[place]);
        equal("a layer's spent amount", spent[place], figures.spent)?;
        equal("a layer's deductible left", line[1], figures.deductible_left)?;
        equal("a layer's cover left", line[2], figures.cover_left)?;
        equal("a layer's recovered amount", line[3], figures.recovered)?;
        if is_whole || !layer.is_timed {
            equal("a layer's amount premium", line[4], figures.amount_premium)?;
        }
    }
    Ok(())
}

impl Drawn {
    fn new(random: &mut Random) -> Result<Drawn, Difference> {
        let scale = random.pick(&SCALES);
        let (wants_risk, wants_cat) = random.pick(&TIERS);
        let drawn = table(random, scale, wants_risk, wants_cat);
        let (table, forms) = (drawn.lines.concat(), forms(random, scale, &drawn));
        let text: String = forms.iter().map(|forms| format!("(event 1{forms})\n")).collect();
        let refused = |refusal| format!("{}\nthe second calculation refuses: {refusal:?}", shown("table", &table));
        let programme = read_table(&table).map_err(refused)?;
        let events = read_events(&programme, 0, text.as_bytes()).map_err(refused)?;
        let lists = counted(events.into_iter().map(|event| event.losses));
        let (record, year) = (boundary::read(&table).programme, Year::of(&programme, &lists));
        Ok(Drawn { table, record, programme, forms, lists, year })
    }

    /// Holds what a dealing left to the year. Under whole shares every premium is the amount premium.
    fn check(&self, left: &Left, is_whole: bool) -> Result<(), String> {
        let (Programme { risk, cat, .. }, Left { standing, statement, .. }) = (&self.programme, left);
        equal("gross", statement.total[0], self.year.gross)?;
        equal("ceded", statement.total[1], self.year.ceded)?;
        let lines = tier(&statement.layers, "(layer risk");
        check_tier(risk, &self.year.risk, &standing.risk, &lines, is_whole)?;
        if let Some(figures) = &self.year.cat {
            let lines = tier(&statement.layers, "(layer cat");
            check_tier(cat, figures, &standing.cat, &lines, is_whole)?;
        }
        self.year.net.map_or(Ok(()), |net| equal("net", statement.total[4], net))
    }

    /// Makes a dealing under shares, and where premium is by time once more under whole ones.
    fn run(&self, random: &mut Random, dealt: &Dealt, shares: Option<&[u64]>) -> Result<Left, Difference> {
        let left = dealt.run(random, &self.record, shares)?;
        self.check(&left, false)?;
        if self.layers().any(|layer| layer.is_timed) {
            self.check(&dealt.run(random, &self.record, Some(&WHOLE_SHARES))?, true)?;
        }
        Ok(left)
    }

    fn deal(&self, random: &mut Random, shares: Option<&[u64]>) -> Result<Made, Difference> {
        let dealt = Dealt::new(random, &self.forms);
        match self.run(random, &dealt, shares) {
            Ok(left) => Ok(Made { dealt, left }),
            Err(found) => {
                let (table, year) = (shown("table", &self.table), &self.year);
                let lent = format!("{table}\n--- lent the scale\n{shares:?}\n{}", dealt.shown());
                Err(format!("{lent}\n{found}\n--- by the lists alone\n{year:?}"))
            }
        }
    }

    pub fn layers(&self) -> impl Iterator<Item = &Layer> {
        self.programme.risk.iter().chain(&self.programme.cat)
    }

    /// What the year would come to with the losses inside each list the other way about.
    pub fn turned(&self) -> Year {
        let all = self.lists.iter().flat_map(|(list, times)| vec![list; *times as usize]);
        Year::of(&self.programme, &counted(all.map(|list| list.iter().rev().cloned().collect())))
    }
}

/// Draws lists and deals them twice, half of the time under one scale.
pub fn compare(random: &mut Random, dealings: &mut Dealings) -> Result<(), Difference> {
    let drawn = Drawn::new(random)?;
    let first = shares(random);
    let second = if random.one_in(2) { first.clone() } else { shares(random) };
    let made = [drawn.deal(random, first.as_deref())?, drawn.deal(random, second.as_deref())?];
    dealings.count(&drawn, &made, first == second);
    Ok(())
}

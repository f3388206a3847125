// How the cost of a run grows: series of cases in which one number rises and the rest stays, for bench/growth.py.
use crate::cases::{full_table, layers, treaties, Case};
use crate::sides::Rooms;
use crate::texts::{full_text, idle_text, Draw, MIXED};

// In every text of the series `losses`: events of 64 as well as of one, whole ones, hold so many within a full text.
const LOSSES: usize = 1_664;

// A series' name, its numbers, and the case of a number.
type Series = (&'static str, fn() -> Vec<usize>, fn(usize) -> Case);

const SERIES: [Series; 5] = [
    ("events", || up_to(lines(&single()), 50), |number| Case::new(full_table(), [first(number, &single())])),
    ("idle", || up_to(lines(&idle_text()), 250), |number| Case::new(full_table(), [first(number, &idle_text())])),
    ("losses", || (0..=6).map(|power| 1 << power).collect(), |number| Case::new(full_table(), [grouped(number)])),
    ("layers", || (0..=8).collect(), |number| Case::new(table(number, 5_000_000), [fours()])),
    ("open", || (0..=8).collect(), |number| Case::new(table(number, 1_000_000_000_000), [fours()])),
];

fn lines(text: &str) -> usize {
    text.lines().count()
}

// The first so many lines of a text.
fn first(number: usize, text: &str) -> String {
    text.split_inclusive('\n').take(number).collect()
}

// From 0 by steps, and the most.
fn up_to(most: usize, step: usize) -> Vec<usize> {
    (0..most).step_by(step).chain([most]).collect()
}

// A full text of events of one loss.
fn single() -> String {
    full_text(Draw { losses: 1, ..MIXED })
}

// So many losses to an event. The losses are the same in each text: they are drawn in one order, in whatever event.
fn grouped(losses: usize) -> String {
    first(LOSSES / losses, &full_text(Draw { losses, ..MIXED }))
}

// 500 events of four losses.
fn fours() -> String {
    first(500, &full_text(Draw { losses: 4, ..MIXED }))
}

// So many layers in each tier, all within reach of `fours`. With a small deductible they come to their caps, the
// lowest within some dozens of losses; with a large one they never do.
fn table(count: usize, deductible: u64) -> String {
    treaties(40_000_000, 900_000_000, 10_000_000)
        + &layers("risk", count, 2_000_000, 5_000_000, deductible, 7_500_001)
        + &layers("cat", count, 10_000_000, 5_000_000, deductible, 7_500_001)
}

// The case of a series' name, a hyphen and a number.
pub fn case_named(name: &str) -> Option<Case> {
    let (name, number) = name.rsplit_once('-')?;
    let (_, _, draw) = SERIES.iter().find(|(series, ..)| *series == name)?;
    Some(draw(number.parse().ok()?))
}

// Compares both sides on all cases; prints of each its series and number, and how many events and losses it has.
pub fn print_cases() {
    let mut rooms = Rooms::new();
    for (series, numbers, draw) in SERIES {
        for number in numbers() {
            let case = draw(number);
            case.compare(series, &mut rooms);
            let text = String::from_utf8_lossy(&case.texts[0]);
            println!("{series} {number} {} {}", lines(&text), text.matches("(loss").count());
        }
    }
}

// Running events against the yardstick, a fast plain Rust program: the same bytes and standings, and how many times
// the time. Then runs that are lent no byte too many, and the stack that a run takes. `bash bench/run events` builds
// and runs it. Nothing here is part of the gate. For bench/count.py and bench/growth.py it is called as
//
//   run_events count CASE SIDE    one run of a case by engine, yardstick or exact, the engine lent no byte too many
//   run_events names              the names of the cases that are one run
//   run_events exact              the names of those that are lent two buffers
//   run_events growth             the cases of bench/growth.rs
#[path = "../tests/second/calculation.rs"]
#[allow(dead_code)] // of the second calculation only the reading of tables is used here
mod calculation;
mod cases;
#[path = "../tests/shared/damage.rs"]
#[allow(dead_code)] // only the drawing of scales stands on it here
mod damage;
#[path = "../tests/shared/draw.rs"]
#[allow(dead_code)] // the tests call the rest
mod draw;
mod drawn_years;
mod exact;
mod growth;
#[path = "../tests/shared/random.rs"]
mod random;
#[path = "../bindings/rust/src/raw.rs"]
#[allow(dead_code)] // opening and writing are not measured here
mod raw;
#[path = "../tests/shared/scales.rs"]
#[allow(dead_code)] // the tests call the rest
mod scales;
mod sides;
mod stack;
mod texts;
mod timing;
#[path = "../tests/shared/totals.rs"]
#[allow(dead_code)] // the tests call the rest
mod totals;
mod yardstick;

use cases::{Case, CASES};
use sides::{Rooms, Year, ROOM};
use std::env;
use std::hint::black_box;
use texts::EVENTS_BYTES;
use timing::{median, time, ROUNDS};

// In a round the second of two calls, the yardstick or the wide buffer, takes about so long, in nanoseconds.
const ROUND_TIME: f64 = 1_000_000.0;

impl Case {
    fn by_engine(&self, room: &mut [u8]) {
        for events in &self.texts {
            let mut standing = Default::default();
            black_box(self.sides.by_engine(&mut standing, black_box(events), room));
            black_box(standing);
        }
    }

    fn by_yardstick(&self, room: &mut [u8]) {
        for events in &self.texts {
            let mut standing = Default::default();
            black_box(self.sides.by_yardstick(&mut standing, black_box(events), room));
            black_box(standing);
        }
    }

    // Compares both sides; gives the length of all events and that of all statements.
    fn compare(&self, name: &str, rooms: &mut Rooms) -> [usize; 2] {
        let mut written = 0;
        for events in &self.texts {
            let statement = self.sides.compare(&mut Year::default(), events, rooms);
            assert!(name != "open" || !drawn_years::has_cap_reached(statement), "a layer has come to its cap");
            written += statement.len();
        }
        [self.texts.iter().map(Vec::len).sum(), written]
    }
}

// The median times of one turn of each call, in microseconds; the calls take turns.
fn times(room: &mut [u8], first: impl Fn(&mut [u8]), second: impl Fn(&mut [u8])) -> [f64; 2] {
    let turns = (ROUND_TIME / time(1, || second(room))).clamp(1.0, 10_000.0) as usize;
    let mut times = [vec![], vec![]];
    for _ in 0..ROUNDS {
        times[0].push(time(turns, || first(room)) / 1e3);
        times[1].push(time(turns, || second(room)) / 1e3);
    }
    times.map(median)
}

// All cases are compared before the first is timed.
fn print_times() {
    let (mut rooms, mut room) = (Rooms::new(), vec![0; ROOM]);
    let cases = CASES.map(|(name, draw)| (name, draw()));
    let lengths = cases.each_ref().map(|(name, case)| case.compare(name, &mut rooms));
    println!("the same bytes and standings in {} cases", cases.len());
    println!("| case | events, bytes | statement, bytes | engine, us | yardstick, us | ratio |");
    println!("|---|---:|---:|---:|---:|---:|");
    for ((name, case), [read, written]) in cases.iter().zip(lengths) {
        let [ours, theirs] = times(&mut room, |room| case.by_engine(room), |room| case.by_yardstick(room));
        println!("| {name} | {read} | {written} | {ours:.2} | {theirs:.2} | {:.2} |", ours / theirs);
    }
}

fn case_named(name: &str) -> Case {
    let drawn = CASES.iter().find(|(known, _)| *known == name).map(|(_, draw)| draw());
    drawn.or_else(|| growth::case_named(name)).expect("the name of a case")
}

// The statement of events without losses does not fit into the buffer that the program lends.
fn print_refused() {
    let case = case_named("no-loss");
    let mut room = vec![0; EVENTS_BYTES];
    let mut call = || case.sides.answer(&mut Default::default(), &case.texts[0], &mut room);
    let answer = call();
    let times = (0..ROUNDS).map(|_| time(1, &mut call)).collect();
    println!(
        "no-loss into {EVENTS_BYTES} bytes: engine refuses with {}, {} needed, in {:.2} us",
        answer.refusal,
        answer.number,
        median(times) / 1e3
    );
}

fn print_names() {
    let single = CASES.iter().filter(|(_, draw)| draw().texts.len() == 1);
    single.for_each(|(name, _)| println!("{name}"));
}

fn main() {
    let arguments: Vec<String> = env::args().skip(1).collect();
    match arguments.iter().map(String::as_str).collect::<Vec<_>>()[..] {
        ["names"] => print_names(),
        ["exact"] => exact::NAMES.iter().for_each(|name| println!("{name}")),
        ["growth"] => growth::print_cases(),
        ["count", name, "engine"] => case_named(name).by_engine(&mut vec![0; ROOM]),
        ["count", name, "exact"] => exact::run(&case_named(name)),
        ["count", name, "yardstick"] => case_named(name).by_yardstick(&mut vec![0; ROOM]),
        [] => {
            drawn_years::compare_years();
            print_times();
            exact::print_times();
            print_refused();
            stack::measure();
        }
        _ => panic!("call as run_events, run_events names, exact or growth, or run_events count CASE SIDE"),
    }
}

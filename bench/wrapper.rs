// What the Rust wrapper adds to a call: its calls against the raw ones, on the main account's table and year. `bash
// bench/run` builds and runs it. Nothing here is part of the gate.
use cession::{raw, Programme};
use std::hint::black_box;
use std::time::Instant;

const TABLE: &[u8] = include_bytes!("../examples/main-account/programme.txt");
const EVENTS: &[u8] = include_bytes!("../examples/main-account/events.txt");
const STATEMENT: &[u8] = include_bytes!("../examples/main-account/statement.txt");
const ROOM: usize = 65_536;
const ROUNDS: usize = 400;
const TURNS: u32 = 500;

// The mean time of a call, in nanoseconds.
fn time(mut call: impl FnMut() -> usize) -> f64 {
    let start = Instant::now();
    for _ in 0..TURNS {
        black_box(call());
    }
    start.elapsed().as_nanos() as f64 / f64::from(TURNS)
}

// The least times of three forms of a call, taken in turn: raw, lending a buffer, owning it. All write so many bytes.
fn compare(name: &str, calls: &mut [&mut dyn FnMut() -> usize; 3], length: usize) {
    let mut least = [f64::MAX; 3];
    for _ in 0..ROUNDS {
        for (call, least) in calls.iter_mut().zip(&mut least) {
            assert_eq!(call(), length);
            *least = least.min(time(&mut *call));
        }
    }
    let [raw, lending, owning] = least;
    println!(
        "Rust, {name}: raw {raw:.0} ns, {name}_into {lending:.0} ns ({:+.1} ns, ratio {:.3}), owning its buffer \
        {owning:.0} ns (ratio {:.2})",
        lending - raw,
        lending / raw,
        owning / raw
    );
}

fn measure_write(programme: &Programme) {
    let numbers = raw::Programme::from(programme.clone());
    let (mut ours, mut theirs) = (vec![0; ROOM], vec![0; ROOM]);
    let mut raw = || {
        let room = black_box(&mut theirs).as_mut_ptr();
        unsafe { raw::cession_write(*black_box(&numbers), room, ROOM) }.number as usize
    };
    let mut lending = || black_box(programme).write_into(black_box(&mut ours)).unwrap_or(0);
    let mut owning = || black_box(programme).write().map_or(0, |text| text.len());
    compare("write", &mut [&mut raw, &mut lending, &mut owning], TABLE.len());
    assert!(ours.starts_with(TABLE) && theirs.starts_with(TABLE), "the tables differ");
}

fn measure_run(programme: &Programme) {
    let numbers = raw::Programme::from(programme.clone());
    let fresh = programme.open().expect("a year");
    let (mut ours, mut theirs) = (vec![0; ROOM], vec![0; ROOM]);
    let mut raw = || {
        let mut standing = raw::Standing::from(black_box(&fresh).clone());
        let (text, room) = (black_box(EVENTS).as_ptr(), black_box(&mut theirs).as_mut_ptr());
        let numbers = *black_box(&numbers);
        unsafe { raw::cession_run(numbers, &mut standing, text, EVENTS.len(), room, ROOM) }.number as usize
    };
    let mut lending = || {
        let mut standing = black_box(&fresh).clone();
        black_box(programme).run_into(&mut standing, black_box(EVENTS), black_box(&mut ours)).unwrap_or(0)
    };
    let mut owning = || {
        let mut standing = black_box(&fresh).clone();
        black_box(programme).run(&mut standing, black_box(EVENTS)).map_or(0, |text| text.len())
    };
    compare("run", &mut [&mut raw, &mut lending, &mut owning], STATEMENT.len());
    assert!(ours.starts_with(STATEMENT) && theirs.starts_with(STATEMENT), "the statements differ");
}

fn main() {
    let programme = Programme::read(TABLE).expect("a table");
    measure_write(&programme);
    measure_run(&programme);
}

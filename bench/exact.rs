// A run that is lent just the bytes of its statement, beside one that is lent many more: how many times the time.
use crate::cases::Case;
use crate::sides::ROOM;
use crate::{case_named, times};

// The cases that are run with both buffers.
pub const NAMES: [&str; 4] = ["full", "one-loss", "no-loss", "short"];

// The statement, from the yardstick: where instructions are counted, the engine does one run and no other.
fn statement(case: &Case) -> Vec<u8> {
    let mut room = vec![0; ROOM];
    let length = case.sides.by_yardstick(&mut Default::default(), &case.texts[0], &mut room);
    room.truncate(length);
    room
}

pub fn run(case: &Case) {
    case.by_engine(&mut vec![0; statement(case).len()]);
}

// The statement's length: a buffer of so many bytes is filled with the statement, one of a byte less is refused.
fn exact_length(case: &Case) -> usize {
    let (statement, mut room) = (statement(case), vec![0; ROOM]);
    let length = statement.len();
    case.by_engine(&mut room[..length]);
    assert!(room.starts_with(&statement), "the statements differ");
    let answer = case.sides.answer(&mut Default::default(), &case.texts[0], &mut room[..length - 1]);
    assert_eq!((answer.refusal, answer.number), (7, length as u64), "a byte less");
    length
}

pub fn print_times() {
    let mut room = vec![0; ROOM];
    println!("the engine, lent exactly the statement's bytes and lent {ROOM}:");
    println!("| case | statement, bytes | exact, us | wide, us | ratio |");
    println!("|---|---:|---:|---:|---:|");
    for name in NAMES {
        let case = case_named(name);
        let length = exact_length(&case);
        let [exact, wide] = times(&mut room, |room| case.by_engine(&mut room[..length]), |room| case.by_engine(room));
        println!("| {name} | {length} | {exact:.2} | {wide:.2} | {:.2} |", exact / wide);
    }
}

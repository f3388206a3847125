//! A history through the Rust wrapper. Called as `history FOLDER ROOM`, it does and prints what history.c does. The
//! owning forms `run` and `write` are held against the lending ones, and the history is run in four threads at once,
//! each with the stack that the documents ask for.

use cession::{Programme, Refusal, Standing, Terms, Treaty, QUOTA_SHARE};
use std::io::{self, Write};
use std::path::{Path, PathBuf};
use std::{env, fs, thread};

const STACK: usize = 512_000;
const THREADS: usize = 4;

fn treaty_line(treaty: &Treaty) -> String {
    let Treaty { kind, number, cede, capacity, retention, lines, limit } = treaty;
    if *kind == QUOTA_SHARE {
        format!("(quota {number} (cede {cede}) (capacity {capacity}) (event {limit}))\n")
    } else {
        format!("(surplus {number} (retain {retention}) (lines {lines}) (event {limit}))\n")
    }
}

fn layer_line(tier: &str, terms: &Terms) -> String {
    let Terms { attachment, limit, deductible, reinstatements, premium, placed, rates, time } = terms;
    let listed: String = rates[..*reinstatements as usize].iter().map(|rate| format!(" {rate}")).collect();
    let back = format!("(back {reinstatements} {premium}{listed})");
    let time = if *time == 0 { "" } else { " (time)" };
    format!("({tier} (band {attachment} {limit}) (deduct {deductible}) {back} (placed {placed}){time})\n")
}

fn fields(programme: &Programme) -> String {
    let treaties = programme.treaties().iter().map(treaty_line);
    let risk = programme.risk().iter().map(|layer| layer_line("risk", layer));
    let cat = programme.cat().iter().map(|layer| layer_line("cat", layer));
    treaties.chain(risk).chain(cat).collect()
}

fn standing_line(standing: &Standing) -> String {
    let amounts = |places: &[u64]| places.iter().fold(String::new(), |line, amount| line + &format!(" {amount}"));
    let (risk, cat) = (amounts(standing.risk()), amounts(standing.cat()));
    let (risk_timed, cat_timed) = (amounts(standing.risk_timed()), amounts(standing.cat_timed()));
    let timed = format!("(risk-timed{risk_timed}) (cat-timed{cat_timed})");
    format!("(standing (risk{risk}) (cat{cat}) (day {}) {timed})\n", standing.day())
}

fn refusal_line(refusal: &Refusal) -> String {
    format!("(refused {} {})\n", refusal.number(), refusal.second())
}

/// The owning form gives what the lending form writes, and where the buffer lent was too short, what a buffer of the
/// length told takes.
fn hold_run(programme: &Programme, before: &Standing, events: &[u8], lending: &Result<Vec<u8>, Refusal>) {
    let mut after = before.clone();
    let owning = programme.run(&mut after, events);
    if let Err(Refusal::BufferTooShort { needed }) = lending {
        let (mut again, mut buffer) = (before.clone(), vec![0; *needed]);
        assert_eq!(programme.run_into(&mut again, events, &mut buffer), Ok(*needed), "a buffer of the length told");
        assert!(owning == Ok(buffer), "the owning run and a buffer of the length told");
        assert_eq!(after, again, "the standing after the owning run");
    } else {
        assert!(owning == *lending, "the owning run and the lending one");
    }
}

fn run(programme: &Programme, standing: &mut Standing, events: &[u8], room: usize) -> String {
    let before = standing.clone();
    let mut buffer = vec![0; room];
    let answer = programme.run_into(standing, events, &mut buffer).map(|length| buffer[..length].to_vec());
    hold_run(programme, &before, events, &answer);
    match answer {
        Ok(statement) => String::from_utf8(statement).expect("a statement in ASCII"),
        Err(refusal) => refusal_line(&refusal),
    }
}

fn written(programme: &Programme) -> Result<String, Refusal> {
    let text = programme.write()?;
    let mut buffer = vec![0; text.len()];
    assert_eq!(programme.write_into(&mut buffer)?, text.len(), "the owning write and the lending one");
    assert_eq!(buffer, text, "the owning write and the lending one");
    Ok(String::from_utf8(text).expect("a table in ASCII"))
}

fn history(folder: &Path, room: usize) -> Result<String, Refusal> {
    let table = fs::read(folder.join("programme.txt")).expect("programme.txt");
    let programme = Programme::read(&table)?;
    let mut standing = programme.open()?;
    let mut printed = fields(&programme);
    let texts = (1..).map_while(|place| fs::read(folder.join(format!("{place}.txt"))).ok());
    for events in texts {
        printed += &run(&programme, &mut standing, &events, room);
        printed += &standing_line(&standing);
    }
    Ok(printed + &written(&programme)?)
}

fn main() -> io::Result<()> {
    let arguments: Vec<String> = env::args().collect();
    let (folder, room) = (PathBuf::from(&arguments[1]), arguments[2].parse().expect("a number of bytes"));
    let start = |folder: PathBuf| {
        let body = move || history(&folder, room).unwrap_or_else(|refusal| refusal_line(&refusal));
        thread::Builder::new().stack_size(STACK).spawn(body)
    };
    let threads: Vec<_> = (0..THREADS).map(|_| start(folder.clone())).collect::<io::Result<_>>()?;
    let printed: Vec<String> = threads.into_iter().map(|thread| thread.join().expect("a history")).collect();
    assert!(printed.iter().all(|text| *text == printed[0]), "the threads differ");
    io::stdout().write_all(printed[0].as_bytes())
}

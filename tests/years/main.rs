//! Random years: runs a program on each and compares what it prints, byte for byte, with the second calculation.
//! Called as `years PROGRAM SEED COUNT`, or as `years scaled COMMAND SEED COUNT` for years under time scales. Ends with
//! status 1 at the first difference, and when the years of the seed do not reach all that they should.

#[path = "../second/calculation.rs"]
mod calculation;
mod cases;
#[path = "../shared/damage.rs"]
mod damage;
#[path = "../shared/draw.rs"]
mod draw;
#[path = "../shared/feeds.rs"]
mod feeds;
#[path = "../shared/limits.rs"]
mod limits;
#[path = "../second/printed.rs"]
mod printed;
#[path = "../shared/random.rs"]
mod random;
#[path = "../shared/rates.rs"]
mod rates;
#[path = "../shared/roundings.rs"]
mod roundings;
mod scaled;
#[path = "../shared/scales.rs"]
#[allow(dead_code)] // the histories tell the faults of texts apart
mod scales;
#[path = "../shared/show.rs"]
mod show;
mod table_damage;
mod tally;
#[path = "../shared/times.rs"]
mod times;
#[path = "../shared/totals.rs"]
mod totals;

use cases::{Case, Cases, File};
use show::shown;
use std::io::{self, Write};
use std::path::{Path, PathBuf};
use std::process::{exit, Command, Stdio};
use std::{env, fs};
use tally::Tally;

/// Puts the case's texts into the folder.
fn lay_out(folder: &Path, case: &Case) -> io::Result<()> {
    if folder.exists() {
        fs::remove_dir_all(folder)?;
    }
    fs::create_dir_all(folder)?;
    fs::write(folder.join("events.txt"), &case.events)?;
    match &case.file {
        File::Text(text) => fs::write(folder.join("programme.txt"), text),
        File::Folder => fs::create_dir(folder.join("programme.txt")),
        File::Missing => Ok(()),
    }
}

/// Runs the program in the folder. Events come from a file or through a pipe, which gives them in pieces.
fn run(program: &Path, folder: &Path, events: &[u8], piped: bool) -> io::Result<Vec<u8>> {
    let mut command = Command::new(program);
    command.current_dir(folder).stdout(Stdio::piped());
    if piped {
        command.stdin(Stdio::piped());
    } else {
        command.stdin(fs::File::open(folder.join("events.txt"))?);
    }
    let mut child = command.spawn()?;
    if let Some(mut pipe) = child.stdin.take() {
        // A program that refuses the table need not read the events.
        for piece in events.chunks(40_000) {
            if pipe.write_all(piece).is_err() {
                break;
            }
        }
    }
    let output = child.wait_with_output()?;
    match output.status.code() {
        Some(0) => Ok(output.stdout),
        _ => Err(io::Error::other(format!("the program failed: {}", output.status))),
    }
}

fn report(folder: &Path, case: &Case, expected: &[u8], found: &io::Result<Vec<u8>>) {
    match case.table() {
        Some(table) => println!("{}", shown("table", table)),
        None => println!("--- no table"),
    }
    println!("{}", shown("events", &case.events));
    println!("{}", shown("second calculation", expected));
    match found {
        Ok(found) => println!("{}", shown("program", found)),
        Err(error) => println!("--- program: {error}"),
    }
    println!("--- the whole texts are in {}", folder.display());
}

fn usage() -> ! {
    eprintln!("years: call as years PROGRAM SEED COUNT or years scaled COMMAND SEED COUNT");
    exit(2);
}

/// The program or the command, whether it is to be given scales, the seed and how many years.
fn arguments() -> Option<(PathBuf, bool, u64, usize)> {
    let arguments: Vec<String> = env::args().skip(1).collect();
    let words: Vec<&str> = arguments.iter().map(String::as_str).collect();
    let (is_scaled, words) = match words.as_slice() {
        ["scaled", words @ ..] => (true, words),
        words => (false, words),
    };
    let [program, seed, count] = words else { return None };
    Some((fs::canonicalize(program).ok()?, is_scaled, seed.parse().ok()?, count.parse().ok()?))
}

fn main() -> io::Result<()> {
    let Some((program, is_scaled, seed, count)) = arguments() else { usage() };
    let folder = env::current_exe()?.with_file_name(format!("years-{}", std::process::id()));
    if is_scaled {
        return scaled::compare(&program, &folder, seed, count);
    }
    let mut cases = Cases::new(seed);
    let mut tally = Tally::default();
    for number in 1..=count {
        let case = cases.next();
        let expected = case.expected();
        lay_out(&folder, &case)?;
        let found = run(&program, &folder, &case.events, number % 2 == 0);
        if !matches!(&found, Ok(found) if *found == expected) {
            println!("years: seed {seed}, case {number} differs");
            report(&folder, &case, &expected, &found);
            exit(1);
        }
        tally.count(case.table(), &case.events, &expected);
    }
    fs::remove_dir_all(&folder)?;
    tally.print(seed);
    let missing = tally.missing();
    for line in &missing {
        println!("years: {line}");
    }
    exit(i32::from(!missing.is_empty()));
}

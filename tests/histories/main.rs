//! Random histories: runs that are lent one standing and one time scale, refused ones among them, through the library's
//! calls, each compared with the second calculation's ledger. With each history loss lists are dealt to days twice;
//! each dealing is compared with what the lists come to alone. Called as `histories SEED COUNT`, or as `histories SEED
//! only NUMBER` for one history of the seed. Ends with status 1 at the first difference, and when the histories of the
//! seed do not reach all that they should.

mod accepted;
mod aim;
mod boundary;
#[path = "../second/calculation.rs"]
mod calculation;
mod corrupt;
#[path = "../shared/damage.rs"]
mod damage;
mod dealings;
mod dealt;
#[path = "../shared/draw.rs"]
mod draw;
#[path = "../shared/feeds.rs"]
mod feeds;
mod history;
mod in_two;
mod ledger;
#[path = "../shared/limits.rs"]
mod limits;
#[path = "../shared/random.rs"]
mod random;
#[path = "../../bindings/rust/src/raw.rs"]
mod raw;
#[path = "../shared/rates.rs"]
mod rates;
mod records;
mod redealt;
#[path = "../shared/roundings.rs"]
mod roundings;
mod runs;
mod scaled;
#[path = "../shared/scales.rs"]
mod scales;
#[path = "../shared/show.rs"]
mod show;
mod tally;
mod timed;
#[path = "../shared/times.rs"]
mod times;
#[path = "../shared/totals.rs"]
mod totals;

use history::{Difference, History};
use random::Random;
use std::env;
use std::panic::{catch_unwind, AssertUnwindSafe};
use std::process::exit;
use tally::Tally;

/// Each history draws from a seed of its own, so that it can be run again alone.
fn seeds(seed: u64) -> impl Iterator<Item = u64> {
    let mut random = Random(seed);
    std::iter::repeat_with(move || random.between(0, u64::MAX - 1))
}

fn compare(seed: u64, tally: &mut Tally) -> Result<(), Difference> {
    let mut random = Random(seed);
    let runs = random.between(3, 12);
    let mut history = History::open(random, tally)?;
    for number in 1..=runs {
        history.run(tally).map_err(|found| format!("run {number}\n{found}"))?;
    }
    history.end(tally)?;
    // Dealings draw from a seed of their own, so that the runs above do not depend on what they draw.
    redealt::compare(&mut Random(!seed), &mut tally.dealings).map_err(|found| format!("lists dealt twice\n{found}"))
}

fn compare_or_exit(seed: u64, number: usize, history: u64, tally: &mut Tally) {
    // An assertion of the second calculation that fails has printed what it is by then.
    let compared = catch_unwind(AssertUnwindSafe(|| compare(history, tally)));
    if let Err(found) = compared.unwrap_or_else(|_| Err("an assertion failed".to_string())) {
        println!("histories: seed {seed}, history {number} differs, {found}");
        println!("--- again: histories {seed} only {number}");
        exit(1);
    }
}

fn usage() -> ! {
    eprintln!("histories: call as histories SEED COUNT or histories SEED only NUMBER");
    exit(2);
}

fn number_from_1(word: &str) -> Option<usize> {
    word.parse().ok().filter(|number| *number > 0)
}

/// The seed, the first history and the last, counted from 1, and whether they are to reach all that they should.
fn arguments() -> Option<(u64, usize, usize, bool)> {
    let arguments: Vec<String> = env::args().skip(1).collect();
    let words: Vec<&str> = arguments.iter().map(String::as_str).collect();
    match words.as_slice() {
        [seed, count] => Some((seed.parse().ok()?, 1, number_from_1(count)?, true)),
        [seed, "only", number] => {
            let number = number_from_1(number)?;
            Some((seed.parse().ok()?, number, number, false))
        }
        _ => None,
    }
}

fn main() {
    let Some((seed, first, last, is_whole)) = arguments() else { usage() };
    let mut tally = Tally::default();
    for (history, number) in seeds(seed).zip(1..=last).skip(first - 1) {
        compare_or_exit(seed, number, history, &mut tally);
    }
    tally.print(seed);
    let missing = if is_whole { tally.missing() } else { Vec::new() };
    for line in &missing {
        println!("histories: {line}");
    }
    exit(i32::from(!missing.is_empty()));
}

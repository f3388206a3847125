//! What a history comes to by the second calculation: called as `expected FOLDER ROOM`, it prints what the history
//! programs of the bindings are to print for the same folder and buffers of the same size.

#[path = "../second/calculation.rs"]
#[allow(dead_code)] // the other tests call the rest
mod calculation;

use calculation::table::{write_table, Layer};
use calculation::{open, read_table, run, Programme, Standing};
use std::io::{self, Write};
use std::path::Path;
use std::{env, fs};

/// The spent amounts of a tier: each layer's sum, cut off at the cap; 0 where there is no layer.
fn spent(tier: &[Layer], sums: &[u128]) -> String {
    let layers = tier.iter().map(Some).chain(std::iter::repeat(None));
    let amounts = layers.zip(sums).map(|(layer, sum)| (*sum).min(layer.map_or(0, |layer| u128::from(layer.cap()))));
    amounts.map(|amount| format!(" {amount}")).collect()
}

/// The timed premiums of a tier.
fn timed(amounts: &[u64]) -> String {
    amounts.iter().map(|amount| format!(" {amount}")).collect()
}

fn standing_line(programme: &Programme, standing: &Standing) -> String {
    let (risk, cat) = (spent(&programme.risk, &standing.risk), spent(&programme.cat, &standing.cat));
    let (risk_timed, cat_timed) = (timed(&standing.risk_timed), timed(&standing.cat_timed));
    let timed = format!("(risk-timed{risk_timed}) (cat-timed{cat_timed})");
    format!("(standing (risk{risk}) (cat{cat}) (day {}) {timed})\n", standing.day)
}

fn runs(folder: &Path, room: usize, programme: &Programme) -> Result<Vec<u8>, calculation::Refusal> {
    let mut standing = open(programme)?;
    let mut printed = Vec::new();
    let texts = (1..).map_while(|place| fs::read(folder.join(format!("{place}.txt"))).ok());
    for events in texts {
        let mut buffer = vec![0; room];
        match run(programme, &mut standing, &events, &mut buffer) {
            Ok(length) => printed.extend_from_slice(&buffer[..length]),
            Err((refusal, second)) => printed.extend(format!("(refused {refusal} {second})\n").into_bytes()),
        }
        printed.extend(standing_line(programme, &standing).into_bytes());
    }
    Ok(printed)
}

fn history(folder: &Path, room: usize) -> Result<Vec<u8>, calculation::Refusal> {
    let table = fs::read(folder.join("programme.txt")).expect("programme.txt");
    let programme = read_table(&table)?;
    let table = write_table(&programme);
    Ok([table.clone(), runs(folder, room, &programme)?, table].concat())
}

fn main() -> io::Result<()> {
    let arguments: Vec<String> = env::args().collect();
    let room = arguments[2].parse().expect("a number of bytes");
    let printed = history(Path::new(&arguments[1]), room);
    let refused = |(refusal, second)| format!("(refused {refusal} {second})\n").into_bytes();
    io::stdout().write_all(&printed.unwrap_or_else(refused))
}

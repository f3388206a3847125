//! The engine's program over the second calculation: the table from programme.txt in the current folder, events from
//! standard input, the statement or the refusal on standard output. Called with a file's name, under the scale in it.

mod calculation;
mod printed;

use std::fs::{self, File};
use std::io::{self, Read, Write};

/// Reads one byte more than the most that is accepted, so that a longer text shows.
fn text(source: impl Read, most: usize) -> io::Result<Vec<u8>> {
    let mut text = Vec::with_capacity(most + 1);
    source.take(most as u64 + 1).read_to_end(&mut text)?;
    Ok(text)
}

fn main() -> io::Result<()> {
    let table = File::open("programme.txt").and_then(|file| text(file, calculation::table::TABLE_BYTES));
    let events = text(io::stdin(), calculation::EVENTS_BYTES)?;
    let scale = std::env::args().nth(1).map(fs::read).transpose()?;
    io::stdout().write_all(&printed::printed_under(scale.as_deref(), table.as_deref().ok(), &events))
}

//! What the engine's program prints, by the second calculation.

use crate::calculation::time::{read_scale, Scale};
use crate::calculation::{open, read_table, run_scaled, Refusal};

const BUFFER_BYTES: usize = 65_536;

fn statement(table: &[u8], scale: Option<&[u8]>, events: &[u8]) -> Result<Vec<u8>, Refusal> {
    let programme = read_table(table)?;
    let scale = scale.map_or_else(|| Ok(Scale::built_in()), read_scale)?;
    let mut standing = open(&programme)?;
    let mut buffer = vec![0; BUFFER_BYTES];
    let length = run_scaled(&programme, &mut standing, Some(&scale), events, &mut buffer)?;
    buffer.truncate(length);
    Ok(buffer)
}

/// What the program prints; without a table its file would not open.
#[allow(dead_code)] // a test that has scales calls the other
pub fn printed(table: Option<&[u8]>, events: &[u8]) -> Vec<u8> {
    printed_under(None, table, events)
}

/// What the command prints under the scale of a text; without one it is the program.
pub fn printed_under(scale: Option<&[u8]>, table: Option<&[u8]>, events: &[u8]) -> Vec<u8> {
    let answer = match table {
        Some(table) => statement(table, scale, events),
        None => Err((0, 0)),
    };
    answer.unwrap_or_else(|(refusal, second)| format!("(refused {refusal} {second})\n").into_bytes())
}

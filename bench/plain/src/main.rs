//! The program `slip` written plainly, with no proofs: the yardstick for the proved one's speed, and a second opinion on
//! its answers. It reads a count, readings and a book from standard input, and prints the slip or `refused N at P`.

mod book;
mod check;
mod machine;
mod slip;

use std::io::{self, Read, Write};

/// A number and a place, as docs/REFUSALS.md lists them.
pub struct Refusal(pub u32, pub usize);

pub const MOST_ROWS: usize = 256;
pub const MOST_RECORDS: usize = 256;
pub const MOST_CELLS: usize = 2_048;
const ALLOWANCE: u32 = 200_000;
const OUTPUT: usize = 65_536;
const MOST_READINGS: usize = 4_096;

fn main() -> io::Result<()> {
    let mut input = Vec::new();
    io::stdin().lock().read_to_end(&mut input)?;
    let text = answer(&input).unwrap_or_else(|Refusal(number, place)| format!("refused {number} at {place}\n"));
    io::stdout().lock().write_all(text.as_bytes())
}

fn answer(input: &[u8]) -> Result<String, Refusal> {
    let (readings, file) = split(input).ok_or(Refusal(9, 0))?;
    let book = book::read(file)?;
    let rule = check::check(&book)?;
    let run = machine::run(&rule, &readings, ALLOWANCE);
    let text = slip::slip(&rule, &run);
    if text.len() > OUTPUT {
        return Err(Refusal(26, 0));
    }
    Ok(text)
}

/// The day's readings and the book's bytes.
fn split(input: &[u8]) -> Option<(Vec<i32>, &[u8])> {
    let (count, rest) = input.split_at_checked(2)?;
    let count = usize::from(u16::from_le_bytes([count[0], count[1]]));
    if count > MOST_READINGS {
        return None;
    }
    let (readings, file) = rest.split_at_checked(4 * count)?;
    let readings = readings.chunks_exact(4).map(|b| i32::from_le_bytes([b[0], b[1], b[2], b[3]])).collect();
    Some((readings, file))
}

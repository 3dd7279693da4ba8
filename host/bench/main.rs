//! The time of the port's C functions, of the original Rust, and of the same calls written in Rust with
//! the port's tests (`same/`), from one driver and in one run.
//!
//! Usage: bench [--rounds N] [--rows PATTERN]...
//!
//! Each figure is the median of so many rounds, in nanoseconds a call; rounds of the three take turns.
//! What has to be put back between rounds is put back outside the timed part. A row whose rounds spread
//! too far is measured again. After each row the states of all three are compared, every word and part:
//! a difference ends the run with status 1. First of all `same` is played beside the port on any parts.

mod agree;
mod faults;
mod frames;
mod key;
mod regions;
mod same;
mod sides;
mod table;
mod trio;
mod walks;

use std::{env, process};
use table::Table;

/// The frames of a large board: as many as the bitmap has bits.
const LARGE: u64 = 8192;

/// The frames of the key program's board.
const SMALL: u64 = 16;

/// The number of rounds and the patterns of rows.
fn options(mut words: impl Iterator<Item = String>) -> Option<(usize, Vec<String>)> {
    let (mut rounds, mut patterns) = (41, Vec::new());
    while let Some(word) = words.next() {
        match word.as_str() {
            "--rounds" => rounds = words.next()?.parse().ok().filter(|&rounds| rounds > 0)?,
            "--rows" => patterns.push(words.next()?),
            _ => return None,
        }
    }
    Some((rounds, patterns))
}

fn main() {
    let Some((rounds, patterns)) = options(env::args().skip(1)) else {
        eprintln!("usage: bench [--rounds N] [--rows PATTERN]...");
        process::exit(2);
    };
    table::agreed("same beside the port", "on random calls", agree::play());
    table::read_clock();
    let mut table = Table::new(rounds, patterns);
    frames::rows(&mut table);
    walks::rows(&mut table);
    regions::rows(&mut table);
    faults::rows(&mut table);
    key::row(&mut table);
    if table.is_empty() {
        eprintln!("no row matches");
        process::exit(2);
    }
    table.print();
}

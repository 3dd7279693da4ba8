//! What a test program is told: a seed, and how much to run.

#![allow(dead_code)] // no program uses all of it

use std::{env, process};
use trial::generate::Random;

pub struct Options {
    pub seed: u64,
    /// How much to run: sequences, or rounds.
    pub amount: u64,
    /// The first of them.
    pub from: u64,
}

impl Options {
    /// Reads `--seed S --from I --NAME N`, the amount under this name and this many if not given.
    pub fn read(program: &str, name: &str, amount: u64) -> Options {
        let mut options = Options { seed: 1, amount, from: 0 };
        let mut words = env::args().skip(1);
        while let Some(word) = words.next() {
            let number = words.next().and_then(|number| number.parse().ok());
            match (word.strip_prefix("--"), number) {
                (Some("seed"), Some(number)) => options.seed = number,
                (Some("from"), Some(number)) => options.from = number,
                (Some(word), Some(number)) if word == name => options.amount = number,
                _ => {
                    eprintln!("usage: {program} [--seed S] [--{name} N] [--from I]");
                    process::exit(2);
                }
            }
        }
        println!("{program}: seed {} {name} {}", options.seed, options.amount);
        options
    }

    /// Random numbers of their own for each check.
    pub fn random(&self, stream: u64) -> Random {
        self.nth(stream, 0)
    }

    /// Random numbers of their own for each sequence of a check.
    pub fn nth(&self, stream: u64, number: u64) -> Random {
        let mut mixed = Random::new(self.seed ^ stream << 56);
        Random::new(mixed.word().wrapping_add(number << 20))
    }
}

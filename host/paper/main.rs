//! The program `paper`. `paper help` tells what it can do.

use paper::Console;
use std::env;
use std::process::exit;

fn main() {
    let words: Vec<String> =
        env::args_os().skip(1).map(|word| word.to_string_lossy().into_owned()).collect();
    exit(i32::from(paper::run(&words, &mut Console::standard())));
}

//! The compiled calls on numbers and on the frame record, and mmap's search, beside the original Rust, on
//! limits and on random inputs; the walks on tables made by hand, of four and of five levels, and their
//! working; examples on boards of five levels and of mprotect. All that is lent to them stands between guard
//! pages.
//!
//! Prints `ok NAME` or `FAILED NAME: why` for each check and ends with the two counts.
//! Where a sequence of calls differs, the shortest one found is printed.
//!
//! Usage: layers [--seed S] [--sequences N]

mod addresses;
mod differences;
mod entries;
mod example;
mod five;
mod frames;
mod given;
#[path = "../shared/guard.rs"]
mod guard;
#[path = "../shared/model/mod.rs"]
mod model;
#[path = "../shared/options.rs"]
mod options;
mod papers;
#[path = "../shared/port.rs"]
mod port;
mod protect;
mod question;
mod reader;
#[path = "../shared/report.rs"]
mod report;
#[path = "../shared/rights.rs"]
mod rights;
mod rounding;
mod search;
mod walks;
mod working;

use options::Options;
use report::Report;

fn main() {
    guard::touch_if_told();
    let options = Options::read("layers", "sequences", 400);
    guard::watch();
    let mut report = Report::default();
    guard::check(&mut report);
    rounding::check(&mut report, &options);
    addresses::check(&mut report, &options);
    entries::check(&mut report, &options);
    frames::check(&mut report, &options);
    walks::check(&mut report, &options);
    working::check(&mut report, &options);
    question::check(&mut report, &options);
    five::check(&mut report);
    protect::check(&mut report, &options);
    given::check(&mut report);
    differences::check(&mut report);
    papers::check(&mut report);
    search::check(&mut report, &options);
    report.finish();
}

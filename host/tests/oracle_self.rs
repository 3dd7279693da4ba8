//! The oracle's own tests: its text, its tapes, document 01's examples on both builds, and
//! that random calls inside the domain never panic or crash.
//!
//! Prints `ok NAME` or `FAILED NAME: why` for each check and ends with the two counts.
//!
//! Usage: oracle-self [TAPES] (random tapes of each profile, 2000 if not given)

#![allow(clippy::duplicate_mod)] // the same checks run on two builds

/// Checks on the build that panics where a sum overflows.
#[path = "oracle_self"]
mod checked {
    pub use rinux_checked as rinux;
    pub mod edge;
    pub mod examples;
    pub mod leftovers;
    pub mod run;
}

/// The same checks on the build that wraps.
#[path = "oracle_self"]
mod wrapping {
    pub use rinux_wrapping as rinux;
    pub mod edge;
    pub mod examples;
    pub mod leftovers;
    pub mod run;
}

#[path = "shared/guard.rs"]
mod guard;
#[path = "oracle_self/judge.rs"]
mod judge;
#[path = "oracle_self/random.rs"]
mod random;
#[path = "shared/report.rs"]
mod report;
#[path = "oracle_self/tapes.rs"]
mod tapes;
#[path = "oracle_self/text.rs"]
mod text;

fn main() {
    let tapes = std::env::args().nth(1).map_or(2000, |word| word.parse().expect("a number"));
    guard::watch();
    let mut report = report::Report::default();
    text::check(&mut report);
    tapes::check(&mut report);
    checked::examples::check(&mut report);
    wrapping::examples::check(&mut report);
    checked::leftovers::check(&mut report);
    wrapping::leftovers::check(&mut report);
    checked::edge::check(&mut report);
    wrapping::edge::check(&mut report);
    judge::check(&mut report);
    random::check(&mut report, tapes);
    report.finish();
}

//! Every C function on anything: sound boards of four and of five levels, sound boards with odd words,
//! marks and lists, records broken in every way, parts of every length, rubbish. All that is lent stands
//! between guard pages.
//!
//! Each call must end, must touch nothing but what is lent, and must answer and leave what a model of
//! document 01 does; apart from the model it is checked that the number is one that document 01 has
//! for the call, and that a refusal that has no leftovers changes nothing.
//!
//! Prints `ok NAME` or `FAILED NAME: why` for each check and ends with the two counts.
//!
//! Usage: anything [--seed S] [--rounds N] [--from I]

mod boards;
mod broken;
mod damage;
mod every;
#[path = "../shared/found.rs"]
mod found;
mod given;
#[path = "../shared/guard.rs"]
mod guard;
#[path = "../shared/model/mod.rs"]
mod model;
#[path = "../shared/options.rs"]
mod options;
#[path = "../shared/port.rs"]
mod port;
mod protect;
#[path = "../shared/protected.rs"]
mod protected;
mod question;
#[path = "../shared/report.rs"]
mod report;
#[path = "../shared/rights.rs"]
mod rights;
mod shot;
mod table;
mod working;
mod worst;

use options::Options;
use report::{Checked, Report};
use shot::Seen;
use std::time::{Duration, Instant};

/// The longest that a call may take, in seconds.
const PATIENCE: u32 = 120;

fn main() {
    guard::touch_if_told();
    let options = Options::read("anything", "rounds", 3000);
    guard::watch();
    let mut report = Report::default();
    guard::check(&mut report);
    let mut seen = Seen::default();
    for (stream, kind) in (1..).zip(damage::Kind::ALL) {
        report.tell(&format!("anything: {}", kind.name()), run(&options, stream, kind, &mut seen));
    }
    report.check("anything: an answer's two registers", every::registers());
    let rounds = options.amount / 30 + 1;
    report.tell("anything: every C function", every::run(&mut options.random(20), rounds));
    table::check(&mut report, &seen, options.amount);
    working::check(&mut report, &seen, options.amount);
    question::check(&mut report, &seen, options.amount);
    protect::check(&mut report, &seen, options.amount);
    given::check(&mut report, &seen, options.amount);
    worst::check(&mut report);
    report.finish();
}

/// As many rounds of a kind: a board, some copies of it, each changed and then played on.
fn run(options: &Options, stream: u64, kind: damage::Kind, seen: &mut Seen) -> Checked {
    let rounds = (options.amount * kind.share() + 99) / 100;
    let mut told = Instant::now();
    let mut calls = 0;
    for i in options.from..options.from + rounds {
        guard::within(PATIENCE);
        let mut random = options.nth(stream, i);
        calls += shot::round(&mut random, kind, seen).map_err(|why| format!("round {i}: {why}"))?;
        if told.elapsed() > Duration::from_secs(5) {
            told = Instant::now();
            println!("  {} of {rounds} rounds, {calls} calls", i - options.from + 1);
        }
    }
    Ok(calls)
}

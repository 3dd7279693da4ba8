//! The port beside the original Rust: sequences of calls inside document 01's domain of equality,
//! played on both. After every call the answer, both lists, the bitmap, the counter, the marked pages
//! and every word of the lent frames are compared. An mprotect, which the Rust has not, ends the domain: from
//! it on the model stands in the Rust's place.
//!
//! Prints `ok NAME` or `FAILED NAME: why` for each kind of board and ends with the two counts. Where a
//! sequence differs, the shortest one found is printed.
//!
//! Usage: beside [--seed S] [--sequences N] [--from I]

mod behind;
mod boards;
mod churn;
mod draw;
#[path = "../shared/found.rs"]
mod found;
mod given;
#[path = "../shared/guard.rs"]
mod guard;
#[path = "../shared/model/mod.rs"]
mod model;
#[path = "../shared/options.rs"]
mod options;
mod play;
#[path = "../shared/port.rs"]
mod port;
#[path = "../shared/protected.rs"]
mod protected;
mod rare;
#[path = "../shared/report.rs"]
mod report;
#[path = "../shared/rights.rs"]
mod rights;
mod seen;
mod spoil;
mod starts;

use boards::Kind;
use options::Options;
use play::Seen;
use report::{Checked, Report};
use std::time::{Duration, Instant};

/// Tells how far the run has come, every few seconds.
struct Progress {
    begun: Instant,
    told: Instant,
    sequences: u64,
    calls: u64,
}

impl Progress {
    fn add(&mut self, calls: u64) {
        self.sequences += 1;
        self.calls += calls;
        if self.told.elapsed() > Duration::from_secs(5) {
            self.told = Instant::now();
            self.tell();
        }
    }

    fn tell(&self) {
        let seconds = self.begun.elapsed().as_secs();
        println!("  {} sequences, {} calls, {seconds} s", self.sequences, self.calls);
    }
}

fn main() {
    let options = Options::read("beside", "sequences", 6000);
    guard::watch();
    let mut report = Report::default();
    let now = Instant::now();
    let mut progress = Progress { begun: now, told: now, sequences: 0, calls: 0 };
    let mut seen = Seen::new();
    report.tell("beside: starts", starts::check(&options));
    for (stream, kind) in (1..).zip(Kind::ALL) {
        let checked = run(&options, stream, kind, &mut seen, &mut progress);
        report.tell(&format!("beside: {}", kind.name()), checked);
    }
    progress.tell();
    seen::check(&mut report, &seen, options.amount);
    report.finish();
}

/// A kind's share of the sequences.
fn run(
    options: &Options,
    stream: u64,
    kind: Kind,
    seen: &mut Seen,
    progress: &mut Progress,
) -> Checked {
    let mut played = 0;
    let before = (seen::inside(seen), seen::outside(seen));
    for i in options.from..options.from + kind.sequences(options.amount) {
        guard::at(format!("beside: {}, sequence {i}", kind.name()));
        let calls = play::sequence(&mut options.nth(stream, i), kind, seen)
            .map_err(|why| format!("sequence {i}: {why}"))?;
        progress.add(calls);
        played += calls;
    }
    let (inside, outside) = (seen::inside(seen) - before.0, seen::outside(seen) - before.1);
    let percent = inside * 100 / (inside + outside).max(1);
    println!("  {percent} of 100 calls inside the domain, {} behind an mprotect", played - inside);
    let least = if options.amount < seen::ENOUGH { 0 } else { kind.least_inside() };
    let enough = format!("{least} of 100 calls inside the domain, not {percent}");
    report::holds(percent >= least, &enough)?;
    Ok(played)
}

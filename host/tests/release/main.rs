//! The release paper (demand 3), played on the port and on the original Rust, and on boards of five levels,
//! which the Rust has not, on the port and on the model: random lists of vmalloc, vfree, mmap and munmap from
//! fresh boards, refused calls included, then several orders of releasing all live regions. Every clause is
//! checked at each order's end, and the window book at every step.
//!
//! Prints `ok NAME` or `FAILED NAME: why` for each check and ends with the two counts. Where a list
//! fails, the shortest one found is printed.
//!
//! Usage: release [--seed S] [--lists N] [--from I]

mod account;
mod beside;
mod draw;
mod ended;
#[path = "../shared/guard.rs"]
mod guard;
mod list;
#[path = "../shared/model/mod.rs"]
mod model;
#[path = "../shared/options.rs"]
mod options;
mod orders;
#[path = "../shared/port.rs"]
mod port;
#[path = "../shared/report.rs"]
mod report;
mod seen;

use calls::Call;
use draw::Kind;
use gadulnos::raw::{LEVELS, MOST_LEVELS};
use list::{Setting, Source};
use options::Options;
use report::{Checked, Report};
use seen::Seen;
use trial::minimise;

fn main() {
    let options = Options::read("release", "lists", 1000);
    guard::watch();
    let mut report = Report::default();
    // Half as many lists on five levels, their draws apart.
    for (levels, lists, first) in
        [(LEVELS, options.amount, 1), (MOST_LEVELS, (options.amount + 1) / 2, 11)]
    {
        let mut seen = Seen::new(levels);
        for (stream, kind) in (first..).zip(Kind::ALL) {
            let share = (lists * kind.share() + 99) / 100;
            let checked = run(&options, stream, kind, levels, share, &mut seen);
            let name = format!("release: {levels} levels, {}, lists and their orders", kind.name());
            report.tell(&name, checked);
        }
        seen.check(&mut report, lists);
    }
    report.finish();
}

/// So many lists of a kind: how many orders were tried.
fn run(
    options: &Options,
    stream: u64,
    kind: Kind,
    levels: u64,
    lists: u64,
    seen: &mut Seen,
) -> Checked {
    let before = seen.orders();
    for i in options.from..options.from + lists {
        guard::at(format!("release: {levels} levels, {}, list {i}", kind.name()));
        let (setting, mut draw) = Setting::draw(&mut options.nth(stream, i), kind, levels);
        let mut calls = Vec::new();
        if let Err(why) = whole(&setting, &mut draw, &mut calls, seen) {
            print_shortest(&setting, &calls);
            return Err(format!("list {i}: {why}"));
        }
    }
    Ok(seen.orders() - before)
}

/// A list and all its orders; the calls made are pushed on `calls`.
fn whole(
    setting: &Setting,
    source: &mut dyn Source,
    calls: &mut Vec<Call>,
    seen: &mut Seen,
) -> Result<(), String> {
    let mut given = Vec::new();
    let played = list::play(setting, source, calls, &mut given, seen)?;
    orders::check(setting, played, &given, seen)
}

fn print_shortest(setting: &Setting, calls: &[Call]) {
    let again = |calls: &[Call]| {
        guard::at("the search for a shorter list");
        whole(setting, &mut calls.iter(), &mut Vec::new(), &mut Seen::new(setting.levels))
    };
    let short = minimise::shortest(calls, &mut |calls| again(calls).is_err());
    let (from, to) = setting.memory;
    let Setting { levels, .. } = setting;
    print!("{} calls, from {}, on {levels} levels, ", short.len(), calls.len());
    println!("memory {from:#x} to {to:#x}:");
    print!("{}", minimise::describe(&short));
    println!("then the releases: {}", again(&short).err().unwrap_or_default());
}

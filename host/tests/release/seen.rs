//! How often each thing happened that lists must come upon, or they show little.

use crate::account::{top, Account, Live};
use crate::report::Report;
use calls::{Call, LEVELS, PAGE};
use std::collections::BTreeMap;

/// On boards of one number of levels.
pub struct Seen {
    levels: u64,
    times: BTreeMap<String, u64>,
    /// Whether the list under way has had a refused call, and a cut.
    refused: bool,
}

type Least = (&'static str, u64);

/// What a run of 1000 lists comes upon, at the least, on four levels and on five.
const WANTED: [(&str, &[Least]); 4] = [
    (
        "lists and their orders",
        &[
            ("calls", 30000),
            ("orders", 4000),
            ("regions released at the end", 12000),
            ("pages ever live", 60000),
            ("lists with refused calls", 900),
            ("lists with regions released in them", 600),
            ("lists that end with regions of both kinds", 300),
            ("lists that end with no region", 50),
            ("lists that end with 2 to 4 regions, all orders", 150),
            ("lists that end with 5 regions or more", 250),
            ("lists that end with 200 regions or more", 25),
            ("lists on boards of fewer than 5 frames", 10),
            ("calls that leave no frame free", 300),
        ],
    ),
    ("cuts", &[("calls at 256 parts", 1500), ("cuts at 256", 100), ("lists with a cut", 20)]),
    (
        "ranges and what was left out",
        &[
            ("mmap met, fixed", 700),
            ("mmap met, at its hint", 900),
            ("mmap met, elsewhere than its hint", 200),
            ("a range that ends at the top", 40),
            ("left out: 11", 2500),
            ("left out: 13", 500),
            ("left out: a range above the top", 400),
            ("lists cut before such a call", 40),
        ],
    ),
    (
        "answers",
        &[
            ("vmalloc 0", 9000),
            ("vmalloc 1", 50),
            ("vmalloc 3", 40),
            ("vmalloc 15", 500),
            ("vfree 0", 2000),
            ("vfree 16", 1500),
            ("mmap 0", 4000),
            ("mmap 1", 50),
            ("mmap 2", 100),
            ("mmap 3", 80),
            ("mmap 15", 300),
            ("mmap 20", 80),
            ("munmap 0", 1200),
            ("munmap 1", 80),
            ("munmap 2", 400),
            ("munmap 3", 30),
            ("munmap 16", 1500),
        ],
    ),
];

/// .. beside the Rust, on four levels alone.
const BESIDE_RUST: &[Least] = &[
    ("calls that the Rust was not given, for a sum", 80),
    ("calls that the Rust was not given, for a 257th region", 80),
];

/// .. on five levels alone.
const ON_FIVE: &[Least] =
    &[("mmap met, ending above 2^47", 700), ("lists with a range above 2^47", 250)];

/// Fewer lists than this need not come upon everything.
const ENOUGH: u64 = 500;

impl Seen {
    pub fn new(levels: u64) -> Seen {
        Seen { levels, times: BTreeMap::new(), refused: false }
    }

    pub fn count(&mut self, what: &str) {
        *self.times.entry(what.to_string()).or_default() += 1;
    }

    /// A call of a list, its number, and the account after it.
    pub fn call(&mut self, call: &Call, number: u64, account: &Account) {
        self.count("calls");
        self.count(&format!("{} {number}", call.shape().name));
        self.refused |= number != 0;
        if let (Call::Mmap { given: true, addr, flags, .. }, 0) = (call, number) {
            let start = account.live.last().map_or(0, Live::start);
            let end = account.live.last().map_or(0, |live| live.start() + live.size());
            let what = match (flags & 0x10 != 0, start == *addr) {
                (true, _) => "mmap met, fixed",
                (false, true) => "mmap met, at its hint",
                (false, false) => "mmap met, elsewhere than its hint",
            };
            self.count(what);
            if end == top(self.levels) {
                self.count("a range that ends at the top");
            }
            if end > 1 << 47 {
                self.count("mmap met, ending above 2^47");
            }
        }
    }

    /// A list whose orders were tried, the account before the releases, and the number of frames.
    pub fn list(&mut self, account: &Account, frames: u64) {
        let kernel = account.live.iter().filter(|live| matches!(live, Live::Kernel { .. })).count();
        let user = account.live.len() - kernel;
        let holds = [
            ("lists", true),
            ("lists with refused calls", self.refused),
            ("lists with a cut", account.cuts > 0),
            ("lists with a range above 2^47", account.ever_live.iter().any(is_above)),
            ("lists that end with regions of both kinds", kernel > 0 && user > 0),
            ("lists that end with 5 regions or more", account.live.len() > 4),
            (
                "lists that end with 2 to 4 regions, all orders",
                (2..5).contains(&account.live.len()),
            ),
            ("lists that end with 200 regions or more", account.live.len() >= 200),
            ("lists that end with no region", account.live.is_empty()),
            ("lists with regions released in them", account.live.len() < account.ever_live.len()),
            ("lists on boards of fewer than 5 frames", frames < 5),
        ];
        for (what, _) in holds.iter().filter(|(_, holds)| *holds) {
            self.count(what);
        }
        self.refused = false;
        *self.times.entry("regions released at the end".to_string()).or_default() +=
            account.live.len() as u64;
        *self.times.entry("pages ever live".to_string()).or_default() +=
            account.ever_live.iter().map(|live| live.size() / PAGE).sum::<u64>();
    }

    pub fn orders(&self) -> u64 {
        self.times.get("orders").copied().unwrap_or(0)
    }

    /// Prints what was seen, and checks that nothing wanted is missing, unless the run was a short one.
    pub fn check(&self, report: &mut Report, lists: u64) {
        let counts: Vec<String> =
            self.times.iter().map(|(what, n)| format!("{what}: {n}")).collect();
        println!("  {} levels: {}", self.levels, counts.join("; "));
        let alone = match self.levels {
            LEVELS => ("calls that the Rust was not given", BESIDE_RUST),
            _ => ("ranges above 2^47", ON_FIVE),
        };
        for (name, wanted) in WANTED.into_iter().chain([alone]).filter(|_| lists >= ENOUGH) {
            let name = format!("release: {} levels, {name} often enough", self.levels);
            report.check(&name, self.lacking(wanted, lists).map_or(Ok(()), Err));
        }
    }

    /// What did not come often enough in so many lists.
    fn lacking(&self, wanted: &[Least], lists: u64) -> Option<String> {
        wanted.iter().find_map(|(what, least)| {
            let least = (least * lists / 1000).max(1);
            let times = self.times.get(*what).copied().unwrap_or(0);
            (times < least).then(|| format!("{what}: {times} times, not {least}"))
        })
    }
}

/// Whether a region of mmap's ends above 2^47, where no search ends.
fn is_above(live: &Live) -> bool {
    matches!(live, Live::User(_)) && live.start() + live.size() > 1 << 47
}

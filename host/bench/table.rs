//! Rounds, medians, rows that are measured again, and the printed table.

use crate::sides::Side;
use crate::trio::Trio;
use std::hint::black_box;
use std::process;
use std::sync::atomic::{AtomicU64, Ordering::Relaxed};
use std::time::Instant;

/// At most so much of `same`'s time, in every row.
const GOAL: f64 = 1.3;

/// A row is disturbed if the middle half of one side's rounds spreads over more than this part of its
/// median. It is measured again, so often at the most.
const SPREAD: f64 = 0.1;
const AGAIN: usize = 4;

/// The first rounds warm up.
const WARM_UP: usize = 2;

/// One line: a call, what it is made on, and the goal of its ratio to the Rust if it has one.
pub struct Row {
    pub what: &'static str,
    pub on: String,
    pub goal: Option<f64>,
    /// Whether the line stands in the first table, else in that of growth.
    pub main: bool,
}

impl Row {
    pub fn name(&self) -> String {
        format!("{}, {}", self.what, self.on)
    }
}

/// The calls of a row.
pub trait Work {
    /// Whether the Rust has such a call.
    const IN_RUST: bool = true;

    /// A round on one side: the nanoseconds that each call took.
    fn round<S: Side>(&self, side: &mut S) -> f64;
}

/// A round of each side, or none.
pub type Round<'a> = Option<&'a mut dyn FnMut() -> f64>;

/// What a row's rounds came to: the median of each side that has any.
struct Measured {
    row: Row,
    port: f64,
    rust: Option<f64>,
    same: Option<f64>,
    /// How often the row was measured again, and the spread of the run that counts.
    again: usize,
    spread: f64,
}

pub struct Table {
    rounds: usize,
    /// Rows that hold one of these, all if there is none.
    patterns: Vec<String>,
    rows: Vec<Measured>,
}

/// What it takes to read the clock, in thousandths of a nanosecond.
static CLOCK: AtomicU64 = AtomicU64::new(0);

fn since(begun: Instant) -> f64 {
    begun.elapsed().as_nanos() as f64
}

/// Measures the clock itself: the median of many measurements of nothing.
pub fn read_clock() {
    let times: Vec<f64> = (0..10_001).map(|_| since(Instant::now())).collect();
    CLOCK.store((1000.0 * quartiles(times)[1]) as u64, Relaxed);
}

/// The nanoseconds that each of `count` calls takes, the clock's own time taken off.
pub fn timed<T>(count: u64, mut call: impl FnMut(u64) -> T) -> f64 {
    let begun = Instant::now();
    for i in 0..count {
        black_box(call(i));
    }
    (since(begun) - CLOCK.load(Relaxed) as f64 / 1000.0).max(0.0) / count as f64
}

/// The mean of several times that a step takes, for calls that come in small batches only.
pub fn mean_of(times: u64, mut step: impl FnMut() -> f64) -> f64 {
    (0..times).map(|_| step()).sum::<f64>() / times as f64
}

fn quartiles(mut times: Vec<f64>) -> [f64; 3] {
    times.sort_by(f64::total_cmp);
    [1, 2, 3].map(|quarter| times[(times.len() * quarter / 4).min(times.len() - 1)])
}

/// Rounds of all sides in alternation: the medians, and the largest spread.
fn sample(rounds: usize, sides: &mut [Round; 3]) -> ([Option<f64>; 3], f64) {
    let mut times = [Vec::new(), Vec::new(), Vec::new()];
    for round in 0..rounds + WARM_UP {
        for (side, times) in sides.iter_mut().zip(&mut times) {
            let time = side.as_mut().map(|side| side());
            times.extend(time.filter(|_| round >= WARM_UP));
        }
    }
    let found = times.map(|times| (!times.is_empty()).then(|| quartiles(times)));
    let spreads = found.iter().flatten().map(|[low, median, high]| (high - low) / median);
    (found.map(|quartiles| quartiles.map(|[_, median, _]| median)), spreads.fold(0.0, f64::max))
}

impl Table {
    pub fn new(rounds: usize, patterns: Vec<String>) -> Table {
        Table { rounds, patterns, rows: Vec::new() }
    }

    pub fn is_empty(&self) -> bool {
        self.rows.is_empty()
    }

    pub fn wants(&self, row: &Row) -> bool {
        let name = row.name();
        self.patterns.is_empty() || self.patterns.iter().any(|pattern| name.contains(pattern))
    }

    /// Times a row's calls on boards that are set up for it. A difference between the states that its
    /// rounds leave ends the run.
    pub fn row<W: Work>(&mut self, row: Row, set_up: impl FnOnce() -> (Trio, W)) {
        if !self.wants(&row) {
            return;
        }
        let name = row.name();
        let (mut trio, work) = set_up();
        agreed(&name, "before its rounds", trio.check());
        let Trio { port, rust, same } = &mut trio;
        let rust = rust.as_mut().filter(|_| W::IN_RUST);
        let mut in_rust = rust.map(|rust| || work.round(rust));
        let rust: Round = match &mut in_rust {
            Some(round) => Some(round),
            None => None,
        };
        self.time(row, [Some(&mut || work.round(port)), rust, Some(&mut || work.round(same))]);
        agreed(&name, "after its rounds", trio.check());
    }

    /// Times a row whose sides are given as they are.
    pub fn time(&mut self, row: Row, mut sides: [Round; 3]) {
        let mut best = sample(self.rounds, &mut sides);
        let mut again = 0;
        while best.1 > SPREAD && again < AGAIN {
            again += 1;
            let next = sample(self.rounds, &mut sides);
            if next.1 < best.1 {
                best = next;
            }
        }
        let ([port, rust, same], spread) = best;
        let measured = Measured { row, port: port.unwrap_or(0.0), rust, same, again, spread };
        eprintln!("  {}", measured.line());
        self.rows.push(measured);
    }

    pub fn print(&self) {
        println!("Nanoseconds a call, medians of {} rounds in alternation.\n", self.rounds);
        self.print_rows(true);
        println!("\nHow the times grow.\n");
        self.print_rows(false);
        let again = self.rows.iter().filter(|row| row.again > 0).count();
        let times: usize = self.rows.iter().map(|row| row.again).sum();
        let left = self.rows.iter().filter(|row| row.spread > SPREAD).count();
        let missed = self.rows.iter().filter(|row| row.misses()).count();
        println!("\n{} rows; {missed} are above a goal (`!`).", self.rows.len());
        println!("{again} were disturbed and measured again, {times} times in all; {left} still were (`~`).");
    }

    fn print_rows(&self, main: bool) {
        println!("| call | on | port | Rust | to Rust | goal | `same` | to `same` | again |");
        println!("|---|---|---|---|---|---|---|---|---|");
        for row in self.rows.iter().filter(|row| row.row.main == main) {
            println!("{}", row.line());
        }
    }
}

impl Measured {
    fn misses(&self) -> bool {
        let above = |time: Option<f64>, goal: Option<f64>| match (time, goal) {
            (Some(time), Some(goal)) => self.port / time > goal,
            _ => false,
        };
        above(self.rust, self.row.goal) || above(self.same, Some(GOAL))
    }

    fn line(&self) -> String {
        let time = |time: Option<f64>| time.map_or(String::new(), |time| format!("{time:.1}"));
        let ratio = |time: Option<f64>, goal: Option<f64>| {
            let ratio = time.map(|time| self.port / time);
            let mark = if ratio > goal && goal.is_some() { " !" } else { "" };
            ratio.map_or(String::new(), |ratio| format!("{ratio:.2}{mark}"))
        };
        let again = match (self.again, self.spread > SPREAD) {
            (0, false) => String::new(),
            (again, false) => again.to_string(),
            (again, true) => format!("{again} ~"),
        };
        format!(
            "| {} | {} | {:.1} | {} | {} | {} | {} | {} | {again} |",
            self.row.what,
            self.row.on,
            self.port,
            time(self.rust),
            ratio(self.rust, self.row.goal),
            self.row.goal.map_or(String::new(), |goal| goal.to_string()),
            time(self.same),
            ratio(self.same, Some(GOAL)),
        )
    }
}

/// Ends the run if the sides do not agree.
pub fn agreed(row: &str, when: &str, told: Result<(), String>) {
    if let Err(why) = told {
        eprintln!("FAILED {row}: the sides differ {when}: {why}");
        process::exit(1);
    }
}

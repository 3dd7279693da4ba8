//! How far long work has come, told on a terminal.

use crate::Console;
use std::time::{Duration, Instant};

/// A line on standard error such as `seats 1200 of 5000`, where that is a terminal; nothing elsewhere. Work that is
/// done within a tenth of a second shows none.
pub struct Progress {
    what: String,
    total: u64,
    /// When the line may be written again; never, where no progress is shown.
    due: Option<Instant>,
}

impl Progress {
    /// How long a line stands at least.
    const PAUSE: Duration = Duration::from_millis(100);

    /// Work of `total` steps that begins now; `what` names the steps.
    pub fn new(console: &Console, what: &str, total: u64) -> Progress {
        let due = console.shows_progress.then(|| Instant::now() + Progress::PAUSE);
        Progress { what: what.to_string(), total, due }
    }

    /// Says that so many steps are done. It may be called as often as one likes.
    pub fn tick(&mut self, console: &mut Console, done: u64) {
        let now = match self.due {
            Some(due) => Some(Instant::now()).filter(|now| *now >= due),
            None => None,
        };
        if let Some(now) = now {
            self.due = Some(now + Progress::PAUSE);
            console.show_line(&format!("{} {done} of {}", self.what, self.total));
        }
    }

    /// Takes the line away.
    pub fn end(self, console: &mut Console) {
        console.clear_line();
    }
}

//! The key that answers are marked by: a paper's, or a file's.

use super::answers::{self, Written};
use crate::key::{Key, KeyLine};
use crate::{Source, Trouble};
use calls::Call;
use gadulnos::raw::Told;

/// A line of the key.
#[derive(Clone, Copy)]
pub enum Wanted {
    /// This line, and the call that it is of, where that is known.
    Line(KeyLine, Option<(Call, Told)>),
    /// The line of a release, whichever it is: the key of all seats does not know their orders.
    Release,
}

/// The calls that release a region, by their names.
pub const RELEASES: [(&str, Call); 2] =
    [("vfree", Call::Vfree { addr: 0 }), ("munmap", Call::Munmap { addr: 0, size: 0 })];

/// The most releases that a key may name.
const MOST_RELEASES: usize = 1 << 20;

/// The line of a release that is met.
pub fn met(release: &Call) -> KeyLine {
    KeyLine::of(release, &Told::met(0))
}

/// Which release's line it is, by its place among [`RELEASES`]; nothing if it is none's.
pub fn release(says: Option<KeyLine>) -> Option<usize> {
    RELEASES.iter().position(|(_, call)| says == Some(met(call)))
}

impl Wanted {
    /// Whether it is right to write this.
    pub fn is(&self, says: Option<KeyLine>) -> bool {
        match self {
            Wanted::Line(line, _) => says == Some(*line),
            Wanted::Release => release(says).is_some(),
        }
    }

    /// Its place among a key's lines: the calls, the releases of all seats, the tape, the frames.
    fn rank(&self) -> u8 {
        match self {
            Wanted::Line(KeyLine::Call { .. }, _) => 0,
            Wanted::Release => 1,
            Wanted::Line(KeyLine::Tape(_), _) => 2,
            Wanted::Line(KeyLine::Frames(_), _) => 3,
        }
    }
}

/// A whole key.
#[derive(Default)]
pub struct WholeKey {
    /// Its lines, in their order.
    pub lines: Vec<Wanted>,
    /// How many of its releases are of each kind of [`RELEASES`].
    pub releases: [usize; 2],
}

impl WholeKey {
    /// A paper's.
    pub fn of(source: &Source) -> Result<WholeKey, Trouble> {
        let lines = Key::start(&source.paper)?.map(|(line, call)| Wanted::Line(line, call));
        Ok(WholeKey { lines: lines.collect(), ..WholeKey::default() })
    }

    /// That of a file which holds a key.
    pub fn read(name: &str, bytes: &[u8]) -> Result<WholeKey, Trouble> {
        let mut key = WholeKey::default();
        for line in answers::lines(bytes) {
            key.add(&line).map_err(|why| {
                let (number, shown) = (line.number, line.shown());
                Trouble::Said(format!("{name}:{number}: `{shown}` {why}"))
            })?;
        }
        match key.lines.is_empty() {
            true => Err(Trouble::Said(format!("{name} has no line of a key"))),
            false => Ok(key),
        }
    }

    /// Adds what a line of the file says; or why it cannot be.
    fn add(&mut self, line: &Written) -> Result<(), &'static str> {
        let (wanted, count) = match (line.says, releases(line.text())) {
            (Some(says), _) => (Wanted::Line(says, None), 1),
            (None, Some(releases)) => {
                let all = releases[0].saturating_add(releases[1]);
                if all > MOST_RELEASES {
                    return Err("has more releases than a paper");
                }
                self.releases = releases;
                (Wanted::Release, all)
            }
            (None, None) => return Err("is no line of a key"),
        };
        match self.lines.last().map_or(0, Wanted::rank) {
            last if last > wanted.rank() || last == wanted.rank() && last > 0 => {
                Err("stands behind lines that it goes before: calls, releases, tape, frames")
            }
            _ => {
                self.lines.resize(self.lines.len() + count, wanted);
                Ok(())
            }
        }
    }

    /// Its lines of calls, the same with those of releases in any order, and the lines at the end.
    pub fn parts(&self) -> (&[Wanted], &[Wanted], &[Wanted]) {
        let up_to = |rank| self.lines.iter().take_while(|line| line.rank() <= rank).count();
        let (body, ends) = self.lines.split_at(up_to(1));
        (body.get(..up_to(0)).unwrap_or_default(), body, ends)
    }
}

/// What the line of all releases says, as in `releases 3: vfree 2, munmap 1`: how many of each kind.
fn releases(text: &str) -> Option<[usize; 2]> {
    let text = text.to_ascii_lowercase().replace(&[':', ','][..], " ");
    let words: Vec<&str> = text.split_whitespace().take(7).collect();
    match words.as_slice() {
        ["releases", all, "vfree", vfrees, "munmap", munmaps] => {
            let counts = [vfrees.parse().ok()?, munmaps.parse().ok()?];
            let [vfrees, munmaps]: [usize; 2] = counts;
            (all.parse().ok() == vfrees.checked_add(munmaps)).then_some(counts)
        }
        _ => None,
    }
}

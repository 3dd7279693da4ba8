//! A seat's run, held against the one key.

use super::order::{Orders, Release};
use calls::text;
use gadulnos::raw::Told;
use gadulnos::{Board, Link, Place, Refusal, Tally, VirtAddr};

/// What every seat's run has to come to.
pub struct OneKey<'a> {
    /// The board behind the paper's calls.
    start: &'a Board,
    orders: &'a Orders,
    /// What the release of each live region tells.
    wanted: Vec<Told>,
    /// Whether the theorem of the release paper is about the paper.
    pub proved: bool,
    /// The board at the end.
    pub end: Board,
}

impl<'a> OneKey<'a> {
    /// The key, its end taken from the first seat. On a paper within the theorem a release frees the frame of each of
    /// its region's pages; beyond it a release has to tell what it does on the first seat.
    pub fn of(start: &'a Board, orders: &'a Orders, proved: bool) -> OneKey<'a> {
        let mut wanted: Vec<Told> =
            orders.live.iter().map(|live| Told::found([live.pages(), 0, 0])).collect();
        let mut end = start.clone();
        for Release { region, call } in orders.of(1) {
            let told = end.play(&call);
            if let Some(wanted) = wanted.get_mut(region).filter(|_| !proved) {
                *wanted = told;
            }
        }
        OneKey { start, orders, wanted, proved, end }
    }

    /// What the releases of the live regions tell, in the order of the lists.
    pub fn wanted(&self) -> impl Iterator<Item = Told> + '_ {
        self.wanted.iter().copied()
    }

    /// What is wrong with the end itself, by the theorem's words: an address that translates, or a frame that is
    /// marked and neither root nor table.
    pub fn end_amiss(&self) -> Option<String> {
        let left = self.pages_left();
        if let Some(addr) = left.first() {
            return Some(format!("{addr} still translates when all regions are released"));
        }
        let tables = self.end.links().iter().filter(|link| link.place == Place::Table).count();
        let (marked, reached) = (self.end.allocated_frames(), 1 + tables as u64);
        let amiss = marked != reached;
        amiss.then(|| format!("{marked} frames are marked, and root and tables are {reached}"))
    }

    /// The pages that are still mapped at the end.
    pub fn pages_left(&self) -> Vec<VirtAddr> {
        let is_page = |link: &&Link| matches!(link.place, Place::Page | Place::LargePage);
        self.end.links().iter().filter(is_page).map(Link::addr).collect()
    }

    /// What is wrong with a seat's run, played on a board that is there for that.
    pub fn differs(&self, scratch: &mut Board, seat: u64) -> Option<String> {
        scratch.clone_from(self.start);
        for (place, release) in (1..).zip(self.orders.of(seat)) {
            let (told, wanted) = (scratch.play(&release.call), self.wanted.get(release.region));
            if told.line.number != 0 || Some(&told) != wanted {
                let call = text::call(&release.call);
                let why = answers(&told, wanted);
                return Some(format!("release {place}, `{call}`, {why}"));
            }
        }
        let part = difference(scratch, &self.end);
        part.map(|part| format!("the board at the end has other {part} than seat 1's"))
    }
}

/// The words for a release that tells something else than it should.
fn answers(told: &Told, wanted: Option<&Told>) -> String {
    let tally = |told: &Told| Tally::from(told.tally);
    match (Refusal::of(told.line.number), wanted) {
        (Some(why), _) => format!("is refused with {why}"),
        (None, Some(wanted)) => {
            format!("finds {}, and the key has {}", tally(told), tally(wanted))
        }
        (None, None) => "is no release of a live region".to_string(),
    }
}

/// The first part in which two boards differ.
fn difference(one: &Board, other: &Board) -> Option<&'static str> {
    if one == other {
        return None;
    }
    let parts = [
        (one.allocated_frames() != other.allocated_frames(), "marked frames"),
        (one.kernel_regions() != other.kernel_regions(), "vmalloc regions"),
        (one.user_regions() != other.user_regions(), "mmap regions"),
        (one.next_addr() != other.next_addr(), "next_addr"),
        (one.links() != other.links(), "table entries"),
    ];
    let differing = parts.iter().find(|(differs, _)| *differs);
    Some(differing.map_or("words or records", |(_, part)| part))
}

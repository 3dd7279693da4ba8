//! Which calls stand in the lists that the theorem of the release paper is about (docs/RELEASE.md).

use calls::text;
use calls::{Call, PAGE};
use gadulnos::raw::Told;
use gadulnos::{Levels, MapFlags, Refusal};
use std::fmt::{self, Display, Formatter};

/// Numbers with which a call may leave something changed, though it is refused (docs/NUMBERS.md).
const LEAVES: [Refusal; 5] = [
    Refusal::NoFreeFrame,
    Refusal::AlreadyMapped,
    Refusal::MapPageFailed,
    Refusal::PageTableError,
    Refusal::Outside,
];

/// Why a call stands in no such list.
#[derive(Clone, Copy, Debug, PartialEq, Eq)]
pub enum Outside {
    /// It is none of vmalloc, vfree, mmap and munmap, and may have changed the board.
    Kind,
    /// It was turned away with 11 or 13.
    TurnedAway(Refusal),
    /// Its range counts and ends above this address.
    High(u64),
}

/// What a fixed or page-aligned hinted range may reach: the lower half of the top table.
pub fn top(levels: Levels) -> u64 {
    match levels {
        Levels::Four => 1 << 47,
        Levels::Five => 1 << 56,
    }
}

impl Outside {
    /// What shuts a call with its answer out; nothing if it may stand there. A call that only reads, or that was
    /// refused without leaving anything, changes no board: the list is as good without it.
    pub fn of(call: &Call, told: &Told, levels: Levels) -> Option<Outside> {
        let refused = Refusal::of(told.line.number);
        let turned_away = match refused {
            Some(why @ (Refusal::NoFreeFrame | Refusal::MapPageFailed)) => Some(why),
            _ => None,
        };
        match call {
            Call::Vmalloc { .. } | Call::Vfree { .. } | Call::Mmap { .. } | Call::Munmap { .. } => {
                let counts = refused.is_none() || turned_away.is_some();
                let high = counts && ends_above(call, top(levels));
                let high = high.then_some(Outside::High(top(levels)));
                turned_away.map(Outside::TurnedAway).or(high)
            }
            _ => may_change(call, told).then_some(Outside::Kind),
        }
    }
}

/// Whether a call with this answer may have changed the board.
pub fn may_change(call: &Call, told: &Told) -> bool {
    let refused = Refusal::of(told.line.number);
    !only_reads(call) && refused.map_or(true, |why| LEAVES.contains(&why))
}

/// Whether a call names a fixed or page-aligned hinted range that ends above an address.
pub fn ends_above(call: &Call, top: u64) -> bool {
    match *call {
        Call::Mmap { given: true, addr, size, flags, .. } => {
            let named = MapFlags::from_bits(flags).has(MapFlags::FIXED) || addr % PAGE == 0;
            let pages = (u128::from(size) + u128::from(PAGE - 1)) / u128::from(PAGE);
            named && u128::from(addr) + pages * u128::from(PAGE) > u128::from(top)
        }
        _ => false,
    }
}

/// Whether a call changes no board, whatever its arguments.
fn only_reads(call: &Call) -> bool {
    matches!(
        call,
        Call::Translate { .. }
            | Call::IsCow { .. }
            | Call::IsAllocated { .. }
            | Call::IsVmallocAddr { .. }
            | Call::Counts
            | Call::UserMay { .. }
    )
}

impl Display for Outside {
    fn fmt(&self, f: &mut Formatter) -> fmt::Result {
        match self {
            Outside::Kind => {
                f.write_str("is none of vmalloc, vfree, mmap and munmap, and may change the board")
            }
            Outside::TurnedAway(why) => write!(f, "is turned away with {why}"),
            Outside::High(top) => write!(f, "names a range that ends above {top:#x}"),
        }
    }
}

/// A call that shuts its paper out.
#[derive(Clone, Copy, Debug)]
pub struct Misfit {
    /// Its place among the paper's calls, from 0.
    pub at: usize,
    /// The call.
    pub call: Call,
    /// What is wrong with it.
    pub why: Outside,
}

impl Misfit {
    /// The words for it, behind the paper's name: with its line in a text, or its number on a tape.
    pub fn told(&self, name: &str, lines: &[usize]) -> String {
        let Misfit { at, call, why } = self;
        let place = match lines.get(*at) {
            Some(line) => format!("{name}:{line}"),
            None => format!("{name}: call {}", at + 1),
        };
        format!("{place}: `{}` {why}", text::call(call))
    }
}

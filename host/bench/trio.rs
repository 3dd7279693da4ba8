//! A board of each side, kept in the same state. On five levels there is none of the Rust's.

use crate::sides::{Port, Rust, Same, Side};
use calls::PAGE;
use gadulnos::raw::{Frames, Kernel, Marked, Parts, User, LEVELS};
use trial::state::{Region, Slot, State, SLOTS};

/// The physical address of the first lent frame, and its number.
pub const START: u64 = 0x10_0000;
pub const FIRST: u64 = START / PAGE;

pub struct Trio {
    pub port: Port,
    pub rust: Option<Rust>,
    pub same: Same,
}

/// Does something on each side of a trio.
macro_rules! each {
    ($trio:expr, $side:ident => $does:expr) => {{
        let crate::trio::Trio { port, rust, same } = &mut $trio;
        {
            let $side = port;
            $does;
        }
        if let Some($side) = rust {
            $does;
        }
        {
            let $side = same;
            $does;
        }
    }};
}
pub(crate) use each;

impl Trio {
    /// Fresh boards of so many frames and four levels.
    pub fn start(frames: u64) -> Trio {
        Trio::start_levels(frames, LEVELS)
    }

    /// .. of so many levels.
    pub fn start_levels(frames: u64, levels: u64) -> Trio {
        let end = START + frames * PAGE;
        let board = || rinux::oracle::Board::start(START, end).expect("memory for a board");
        let mut trio = Trio {
            port: Port::lend(FIRST, frames, levels),
            rust: (levels == LEVELS).then(|| Rust { board: board() }),
            same: Same::lend(FIRST, frames, levels),
        };
        each!(trio, side => assert_eq!(side.start(START, end), Some(0)));
        trio
    }

    /// That all stand in the same state: every word, part and record, and what was shown last.
    pub fn check(&self) -> Result<(), String> {
        alike(&self.port.board, &self.same.board)
            .map_err(|part| format!("port and same: {part}"))?;
        if self.port.shown.numbers != self.same.shown.numbers {
            return Err("port and same: the working of a translation".to_string());
        }
        let state = state(&self.port.board).ok_or("the port's parts stand for no state")?;
        let difference = self.rust.as_ref().map(|rust| rust.board.state().difference(&state));
        difference.flatten().map_or(Ok(()), |part| Err(format!("Rust and port: {part}")))
    }
}

/// The first part in which two boards differ.
pub fn alike(one: &Parts, other: &Parts) -> Result<(), &'static str> {
    let parts = [
        ("fields", one.fields == other.fields),
        ("bits", one.bits == other.bits),
        ("root", one.root == other.root),
        ("kernel", one.kernel == other.kernel),
        ("user", one.user == other.user),
        ("marked", one.marked == other.marked),
        ("words", one.words == other.words),
    ];
    parts.into_iter().find(|(_, equal)| !equal).map_or(Ok(()), |(part, _)| Err(part))
}

/// The state that packed parts stand for, if all slots past a count are zero.
pub fn state(board: &Parts) -> Option<State<'_>> {
    let frames = Frames::unpack(&board.fields)?;
    let (kernel, user) = (Kernel::unpack(&board.kernel)?, User::unpack(&board.user)?);
    let marked = Marked::unpack(&board.marked)?;
    let past = |part: &[u8], from: usize| part.get(from..).map_or(false, is_zero);
    let rests = [
        past(&board.kernel, 8 + 24 * kernel.count as usize),
        past(&board.user, 16 + 24 * user.count as usize),
        past(&board.marked, 8 + 8 * marked.count as usize),
    ];
    let regions = user.slots.iter().take(user.count as usize);
    let marks = marked.pages.iter().take(marked.count as usize);
    rests.iter().all(|&rest| rest).then(|| State {
        start_frame: frames.start_frame,
        total: frames.total,
        allocated: frames.allocated,
        levels: frames.levels,
        bitmap: gadulnos::raw::unpack_bitmap(&board.bits),
        root: board.root,
        vmalloc_count: (kernel.count as usize).min(SLOTS),
        slots: kernel.slots.map(|s| Slot { start: s.start, size: s.size, used: s.used }),
        regions: regions
            .map(|r| Region { start: r.start, size: r.size, prot: r.prot, flags: r.flags })
            .collect(),
        next_addr: user.next_addr,
        marked: marks.copied().collect(),
        words: &board.words,
    })
}

fn is_zero(bytes: &[u8]) -> bool {
    bytes.iter().all(|byte| *byte == 0)
}

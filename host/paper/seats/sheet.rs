//! What is written for the seats: their papers, the one key, the list of orders.

use super::check::OneKey;
use super::order::{Orders, Release};
use crate::key::KeyLine;
use crate::words::counted;
use crate::{explain, show};
use calls::tape;
use calls::text::{self, Paper, Setting};
use calls::Call;
use gadulnos::raw::Told;
use std::io::{self, Write};

/// The columns of the board at the end, which stands behind `# ` in lines of 100.
const BOARD_WIDTH: usize = 98;

/// The paper as all seats have it, once as a text and once as a tape.
pub struct Sheet {
    /// Its board's line and its calls'.
    pub text: String,
    /// Its tape, where it fits one.
    pub tape: Option<Vec<u8>>,
}

impl Sheet {
    /// The sheet of a paper whose tape may have kinds 1 to `kinds`.
    pub fn of(paper: &Paper, kinds: u8) -> Sheet {
        Sheet { text: text::print(paper), tape: paper.to_tape(kinds).ok() }
    }

    /// A seat's paper as a text.
    pub fn seat_text(&self, seat: u64, order: &[Release]) -> String {
        let mut text = format!("# Seat {seat}\n{}", self.text);
        if !order.is_empty() {
            text += "# The releases\n";
        }
        for release in order {
            text += &text::call(&release.call);
            text.push('\n');
        }
        text
    }

    /// .. and as a tape.
    pub fn seat_tape(&self, order: &[Release]) -> Option<Vec<u8>> {
        let calls: Vec<Call> = order.iter().map(|release| release.call).collect();
        self.tape.as_ref().map(|tape| [&tape[..], &tape::serialise(&calls)].concat())
    }
}

/// The key that marks every seat.
pub fn key(paper: &Paper, answers: &[(Call, Told)], orders: &Orders, one: &OneKey) -> String {
    let mut text = head(paper, orders, one);
    for (call, told) in answers {
        text += &format!("{}\n", KeyLine::of(call, told));
    }
    text += &releases(orders, one);
    let frames = KeyLine::Frames(one.end.allocated_frames());
    text += &format!("\n# The end, on every seat:\n{frames}\n");
    let board = show::board_text(&one.end, BOARD_WIDTH);
    let comment = |line: &str| format!("# {line}").trim_end().to_string() + "\n";
    text + &board.lines().map(comment).collect::<String>()
}

/// How the key is read.
fn head(paper: &Paper, orders: &Orders, one: &OneKey) -> String {
    let calls = counted(paper.calls.len() as u64, "call");
    let releases = counted(orders.live.len() as u64, "release");
    let why = match one.proved {
        true => "The theorem of the release paper holds of it (docs/RELEASE.md).",
        false => "Beyond the theorem: equal ends were tried on these seats, not proved.",
    };
    let mut text = format!(
        "# The one key of every seat. {why}\n\
         # Every seat has the same {calls}, and then {releases} in an order of its own, which\n\
         # stands in orders.csv by the numbers of the regions below.\n"
    );
    if paper.board != Setting::default() {
        let board = text::print(&Paper { board: paper.board, ..Paper::default() });
        text += &format!("# The board, which the tapes do not name: {board}");
    }
    text + "#\n# The calls:\n"
}

/// The releases, by regions, since each seat has them in another order.
fn releases(orders: &Orders, one: &OneKey) -> String {
    let met = |call: Call| KeyLine::of(&call, &Told::met(0));
    let vfrees = orders.live.iter().filter(|live| live.kernel).count();
    let mut text = format!(
        "\n# The releases, in whatever order.\n\
         # A vfree has the line `{}`, a munmap `{}`.\n\
         releases {}: vfree {vfrees}, munmap {}\n",
        met(Call::Vfree { addr: 0 }),
        met(Call::Munmap { addr: 0, size: 0 }),
        orders.live.len(),
        orders.live.len() - vfrees
    );
    for (number, (live, told)) in (1..).zip(orders.live.iter().zip(one.wanted())) {
        let call = live.release(0);
        let found = explain::told(&call, &told);
        text += &format!("# region {number}: {}: {found}\n", text::call(&call));
    }
    if orders.odd_sizes {
        text += "# A munmap names any size that rounds to its region's: the seat's paper has it.\n";
    }
    text
}

/// Writes the regions in each seat's order, a line a seat, by the numbers that the key gives them.
pub fn orders(orders: &Orders, seats: u64, out: &mut dyn Write) -> io::Result<()> {
    let places = (1..=orders.live.len()).map(|at| format!(",release {at}"));
    writeln!(out, "seat{}", places.collect::<String>())?;
    for seat in 1..=seats {
        let numbers = orders.of(seat).into_iter().map(|release| format!(",{}", release.region + 1));
        writeln!(out, "{seat}{}", numbers.collect::<String>())?;
    }
    Ok(())
}

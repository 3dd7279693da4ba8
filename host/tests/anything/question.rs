//! The user question on a board and on any numbers, beside the model, and how often each case of it came.

use crate::model::Model;
use crate::port::Port;
use crate::report::{equal, Report};
use crate::rights::{often, Case};
use crate::shot::Seen;
use crate::working::address;
use gadulnos::raw::{Frames, LEVELS, MOST_LEVELS};
use trial::generate::Random;

/// Each case comes at least so often, on boards of four levels and of five.
const LEAST: u64 = 20;

/// Asks about some addresses of a board, mostly along tables that stand.
pub fn on_board(random: &mut Random, port: &Port, seen: &mut Seen) -> Result<(), String> {
    let mut model = Model::of(port);
    for _ in 0..4 {
        let virt = address(random, port);
        ask(&port.words, port.frames(), &mut model, virt, seen)
            .map_err(|why| format!("user_may virt={virt:x}: {why}"))?;
    }
    Ok(())
}

/// Asks on these numbers, which the model has too, whether user code may read an address, and write it.
pub fn ask(
    words: &[u64],
    frames: Frames,
    model: &mut Model,
    virt: u64,
    seen: &mut Seen,
) -> Result<(), String> {
    let Frames { start_frame, total, levels, .. } = frames;
    let root = model.root;
    let may = [false, true]
        .map(|write| gadulnos::raw::user_may(words, start_frame, total, levels, root, virt, write));
    equal(may, model.user_may(virt))?;
    // Of a broken record nothing is read.
    let (_, working) = model.show_translate(virt);
    let rows = working[1..].chunks(5).take(working[0] as usize);
    let entries: Vec<u64> = rows.map(|row| row[3]).collect();
    if !entries.is_empty() {
        *seen.cases.entry((levels, Case::of(levels, &entries))).or_default() += 1;
    }
    Ok(())
}

/// Prints how often each case came, and checks that each came often, unless the run was a short one.
pub fn check(report: &mut Report, seen: &Seen, rounds: u64) {
    println!("  the user question, by levels of the walk and case: {:?}", seen.cases);
    if rounds >= 2000 {
        let all = often(&seen.cases, &[LEVELS, MOST_LEVELS], LEAST);
        report.check("anything: every case of the user question was met with", all);
    }
}

//! The start beside the Rust's, on memories of every size: what `init` makes of unaligned ends, no
//! frame at all, and more than 8192.

use crate::guard::Against;
use crate::options::Options;
use crate::port;
use crate::report::{equal_at, Checked};
use calls::PAGE;
use gadulnos::raw::Line;
use rinux::oracle::{Board, Refused};

pub fn check(options: &Options) -> Checked {
    let mut random = options.random(0);
    let mut cases = 0;
    let bytes = [0, 1, PAGE - 1, PAGE, PAGE + 1, 2 * PAGE - 1, 2 * PAGE, 64 * PAGE, 65 * PAGE + 7];
    let large = [8191 * PAGE, 8192 * PAGE, 8192 * PAGE + PAGE - 1, 8193 * PAGE, 9000 * PAGE + 5];
    for bytes in bytes.into_iter().chain(large) {
        let offsets =
            if bytes > 1 << 20 { &[0, PAGE - 1][..] } else { &[0, 1, PAGE / 2, PAGE - 1] };
        for offset in offsets {
            let (from, to) = (0x10_0000 + offset, 0x10_0000 + offset + bytes);
            let extra = random.one_of(&[0, 1, 511, 512]);
            let words = vec![random.word(); (bytes / PAGE).min(8192) as usize * 512 + extra];
            let before = port::rubbish(&mut random, &words);
            let mut ours = port::guarded(&before, Against::Behind);
            let line = ours.start(from, to);
            match Board::start_on(from, to, |lent| lent.copy_from_slice(&words[..lent.len()])) {
                Err(Refused::NoFrame) => {
                    equal_at((from, to), line, Line::refused(11))?;
                    unchanged(&ours, &before)?;
                }
                Err(why) => return Err(format!("{from:#x} to {to:#x}: {why:?}")),
                Ok(board) => {
                    equal_at((from, to), line, Line::met(0))?;
                    let mut state = port::state(&ours)?;
                    let (lent, past) = state.words.split_at(state.words.len() - extra);
                    equal_at((from, to), past, &words[lent.len()..])?;
                    state.words = lent;
                    equal_at((from, to), board.state().difference(&state), None)?;
                }
            }
            cases += 1;
        }
    }
    Ok(cases)
}

fn unchanged(port: &port::Port, before: &gadulnos::raw::Parts) -> Result<(), String> {
    let parts = [&port.fields[..], &port.bits[..], &port.kernel, &port.user, &port.marked];
    let old = [&before.fields[..], &before.bits[..], &before.kernel, &before.user, &before.marked];
    let same = parts == old;
    let same = same && port.words[..] == before.words[..] && port.root == before.root;
    equal_at("a refused start", same, true)
}

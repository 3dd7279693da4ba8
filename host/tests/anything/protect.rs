//! mprotect on a board and on any numbers, beside the model: what holds of it apart from the model, and how often
//! things worth seeing came.

use crate::damage::walked;
use crate::model::Model;
use crate::port::Port;
use crate::protected::{self, Asked, Event};
use crate::report::{equal, holds, Report};
use crate::shot::{Seen, Walk};
use calls::{Call, LAST, PAGE};
use gadulnos::raw::{Line, Parts, User, LEVELS, MOST_LEVELS};
use std::collections::BTreeMap;
use trial::generate::Random;

/// How often each event came, by the levels of the board.
pub type Events = BTreeMap<(u64, Event), u64>;

/// Each event comes at least so often on boards of four levels, and of five.
const LEAST: u64 = 3;

/// An mprotect of a listed region, if there is one, mostly with a size that rounds to its own.
pub fn listed(random: &mut Random, port: &Port) -> Option<Call> {
    let list = User::unpack(&port.user).filter(|list| list.count > 0)?;
    let region = list.slots[random.below(list.count.min(256)) as usize];
    let size = match random.below(8) {
        0 => region.size.wrapping_add(random.one_of(&[1, PAGE, PAGE.wrapping_neg()])),
        1 => random.one_of(&[0, 1, LAST, LAST + 1, u64::MAX]),
        2 | 3 => region.size.wrapping_sub(random.below(PAGE)),
        _ => region.size,
    };
    let addr = region.start | u64::from(random.chance(1, 10));
    let any = random.word() as i32;
    let prot = random.one_of(&[0, 1, 2, 3, 7, -1, i32::MIN, any, any]);
    Some(Call::Mprotect { addr, size, prot })
}

/// What holds of a call that was made, on pages of the region and along tables that stand; then the same call
/// again, and others that lead back.
pub fn on_board(
    random: &mut Random,
    before: &Parts,
    port: &mut Port,
    (addr, size, prot): (u64, u64, i32),
    line: Line,
    seen: &mut Seen,
) -> Result<(), String> {
    let frames = before.frames();
    let address = |_| walked(random, &before.words, frames, before.root);
    let also: Vec<u64> = (0..16).map(address).collect();
    let asked = Asked { addr, size, prot, also: &also };
    for event in protected::check(before, port, &asked, line)? {
        *seen.events.entry((frames.levels, event)).or_default() += 1;
    }
    match line.number {
        0 => protected::again(port, &asked),
        _ => Ok(()),
    }
}

/// An mprotect of a listed region on these numbers, which the model has too.
pub fn on_numbers(
    port: &mut Port,
    model: &mut Model,
    lent: Walk,
    seen: &mut Seen,
) -> Result<(), String> {
    let Walk { start, total, levels, root, virt } = lent;
    let list = model.user.as_ref();
    let at = |list: &User| (virt >> 12) % list.count.clamp(1, 256);
    let region = list.map(|list| list.slots[at(list) as usize]);
    let (addr, size) = region.map_or((0, 0), |region| (region.start, region.size));
    let prot = (virt >> 20) as i32;
    let (words, user) = (&mut port.words, &mut port.user);
    let line = gadulnos::raw::mprotect(words, start, total, levels, root, user, addr, size, prot);
    equal(line, model.play(&Call::Mprotect { addr, size, prot }).line)?;
    holds(words[..] == model.words[..], "the model's words")?;
    let wanted = model.user.as_ref().map(User::pack);
    holds(wanted.map_or(true, |wanted| user[..] == wanted[..]), "the model's list")?;
    let known = if (LEVELS..=MOST_LEVELS).contains(&levels) { levels } else { 0 };
    *seen.protects.entry((known, line.number)).or_default() += 1;
    Ok(())
}

/// Prints how often each event came, and checks that each came often on either number of levels, unless the run was
/// a short one.
pub fn check(report: &mut Report, seen: &Seen, rounds: u64) {
    println!("  mprotect on any numbers, by levels and number: {:?}", seen.protects);
    println!("  mprotect, by levels and what was met with: {:?}", seen.events);
    if rounds >= 2000 {
        report.check("anything: every event of mprotect was met with", all(seen));
    }
}

fn all(seen: &Seen) -> Result<(), String> {
    for levels in [LEVELS, MOST_LEVELS] {
        for event in Event::ALL {
            let times = seen.events.get(&(levels, event)).copied().unwrap_or(0);
            let wanted = format!("{event:?} on {levels} levels {LEAST} times, not {times}");
            holds(times >= LEAST, &wanted)?;
        }
        for number in [0, 10, 16] {
            let came = seen.protects.contains_key(&(levels, number));
            holds(came, &format!("{number} on the numbers of {levels} levels"))?;
        }
    }
    let others = seen.protects.keys().filter(|(levels, _)| *levels == 0);
    equal(others.map(|(_, number)| *number).collect::<Vec<u64>>(), vec![10])
}

//! Releases all live regions in several orders, one call each, and holds the ends against each other
//! and against document 01's clauses.

use crate::account::{Account, Live};
use crate::beside::Beside;
use crate::ended;
use crate::guard::Against;
use crate::list::{Played, Setting};
use crate::port;
use crate::report::{equal, equal_at, holds};
use crate::seen::Seen;
use calls::{Call, PAGE};
use gadulnos::raw::{Line, Parts};
use trial::generate::Random;

/// All orders are tried of at most so many regions.
const FEW: usize = 4;

/// Tries the orders of a list that was played; `given` are the calls that were made beside the port too.
pub fn check(
    setting: &Setting,
    mut played: Played,
    given: &[Call],
    seen: &mut Seen,
) -> Result<(), String> {
    let mut random = Random::new(setting.orders);
    let before = port::unguarded(&played.port);
    let account = played.account.clone();
    let mut first: Option<Parts> = None;
    for (i, order) in orders(&mut random, &account.live).into_iter().enumerate() {
        if i > 0 {
            drop(played);
            played = replayed(setting, &before, &account, given)?;
        }
        let at = |why| format!("order {order:x?}: {why}");
        let end = release(&mut random, &mut played, &order, i == 0).map_err(at)?;
        if let Some(first) = &first {
            same(first, &end)
                .map_err(|why| format!("orders {:x?} and {order:x?}: {why}", account.live))?;
        }
        first.get_or_insert(end);
        seen.count("orders");
    }
    seen.list(&account, before.frames().total);
    Ok(())
}

/// The boards before the releases again: the port's copied, the one beside it played again.
fn replayed(
    setting: &Setting,
    before: &Parts,
    account: &Account,
    given: &[Call],
) -> Result<Played, String> {
    let mut beside = setting.beside()?;
    given.iter().for_each(|call| beside.replay(call));
    let port = port::guarded(before, Against::Behind);
    let played = Played { port, beside, account: account.clone() };
    played.compare()?;
    Ok(played)
}

/// The orders to try: all of them where there are few, else as born, the other way round, by address,
/// and shuffled.
fn orders(random: &mut Random, live: &[Live]) -> Vec<Vec<Live>> {
    if live.len() <= FEW {
        return all(live);
    }
    let born = live.to_vec();
    let back = live.iter().rev().copied().collect();
    let mut rising = live.to_vec();
    rising.sort_by_key(|region| region.start());
    let mut orders = vec![born, back, rising];
    let more = if live.len() > 100 { 1 } else { 4 };
    orders.extend((0..more).map(|_| shuffled(random, live)));
    orders
}

fn all(live: &[Live]) -> Vec<Vec<Live>> {
    if live.is_empty() {
        return vec![Vec::new()];
    }
    let mut orders = Vec::new();
    for i in 0..live.len() {
        let mut rest = live.to_vec();
        let first = rest.remove(i);
        orders.extend(all(&rest).into_iter().map(|rest| [vec![first], rest].concat()));
    }
    orders
}

fn shuffled(random: &mut Random, live: &[Live]) -> Vec<Live> {
    let mut order = live.to_vec();
    for i in (1..order.len()).rev() {
        order.swap(i, random.below(i as u64 + 1) as usize);
    }
    order
}

/// Releases in this order, each release met, and checks the end on both; `closely` compares every word
/// after each release too. The port's parts at the end.
fn release(
    random: &mut Random,
    played: &mut Played,
    order: &[Live],
    closely: bool,
) -> Result<Parts, String> {
    for region in order {
        let call = match *region {
            Live::Kernel { start, .. } => Call::Vfree { addr: start },
            Live::User(r) => Call::Munmap { addr: r.start, size: r.size - random.below(PAGE) },
        };
        let told = port::play(&mut played.port, &call);
        equal_at(call, told.line, Line::met(0))?;
        played.account.gives_back(&call, told)?;
        played.beside.play(&call, told).map_err(|why| format!("{call}: {why}"))?;
        played.account.note(&call, told.line)?;
        match closely {
            true => played.compare()?,
            false => played.account.check(&port::state(&played.port)?)?,
        }
    }
    played.compare()?;
    let Played { port, beside, account } = played;
    ended::check(&port::state(port)?, account)?;
    if let Beside::Rust(rust) = beside {
        ended::check(&rust.state(), account).map_err(|why| format!("the Rust: {why}"))?;
    }
    ended::nowhere(random, account, &mut |addr| port.translate(addr) == Line::refused(14))?;
    ended::nowhere(random, account, &mut |addr| beside.is_nowhere(addr))
        .map_err(|why| format!("beside the port: {why}"))?;
    Ok(port::unguarded(port))
}

/// 'one and the same state, every lent word and record equal': every byte of every part.
fn same(one: &Parts, other: &Parts) -> Result<(), String> {
    for (name, same) in [
        ("fields", one.fields == other.fields),
        ("bitmap", one.bits == other.bits),
        ("vmalloc list", one.kernel == other.kernel),
        ("mmap list", one.user == other.user),
        ("marked pages", one.marked == other.marked),
    ] {
        holds(same, &format!("one and the same {name}"))?;
    }
    equal(one.root, other.root)?;
    holds(one.words == other.words, "one and the same words")
}

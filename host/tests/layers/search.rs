//! mmap's search by itself: the address beside the original's, the number of regions compared beside a
//! count made here, on lists of up to 256 regions.

use crate::guard::{Against, Guarded};
use crate::options::Options;
use crate::report::{equal, equal_at, holds, Checked, Report};
use calls::{LAST, PAGE, USER_WINDOW};
use gadulnos::raw::{Line, Parts, Region, User, SLOTS};
use rinux::mmap::access;
use trial::generate::Random;

/// What the number of comparisons holds before a call.
const OLD: u64 = 0xA5A5_A5A5_A5A5_A5A5;

const NONE: Region = Region { start: 0, size: 0, prot: 0, flags: 0 };

/// How the regions of a list stand.
#[derive(Clone, Copy, Debug)]
enum Kind {
    Anywhere,
    Adjoining,
    Overlapping,
    /// At the window's end, where searches find nothing.
    Ending,
}

const KINDS: [Kind; 4] = [Kind::Anywhere, Kind::Adjoining, Kind::Overlapping, Kind::Ending];

pub fn check(report: &mut Report, options: &Options) {
    report.tell("search: 0 to 256 pages in a row take n (n + 3) / 2 comparisons", rows());
    for (stream, kind) in (40..).zip(KINDS) {
        report.tell(&format!("search: lists, {kind:?}"), lists(options, stream, kind));
    }
    report.check("search: sizes that the original rounds", rounded());
    report.tell("search: broken lists", broken(options));
}

fn row(n: usize) -> Vec<Region> {
    let start = |i| USER_WINDOW.0 + i as u64 * PAGE;
    (0..n).map(|i| Region { start: start(i), size: PAGE, ..NONE }).collect()
}

fn rows() -> Checked {
    for n in 0..=SLOTS {
        let user = packed(&row(n), USER_WINDOW.0).pack();
        let (line, compared) = Parts { user, ..Parts::lend(0) }.find_free_region(PAGE);
        let wanted = (Line::met(USER_WINDOW.0 + n as u64 * PAGE), n * (n + 3) / 2);
        equal_at(n, (line, compared as usize), wanted)?;
    }
    Ok(SLOTS as u64 + 1)
}

/// The C function on a list between guards.
fn search(list: &[Region], next_addr: u64, size: u64) -> (Line, u64) {
    on_bytes(&packed(list, next_addr).pack(), size)
}

fn packed(list: &[Region], next_addr: u64) -> User {
    let mut user = User { count: list.len() as u64, next_addr, slots: [NONE; SLOTS] };
    user.slots[..list.len()].copy_from_slice(list);
    user
}

fn on_bytes(bytes: &[u8], size: u64) -> (Line, u64) {
    let list = Guarded::copy(bytes, Against::Behind);
    let mut compared = Guarded::copy(&[OLD], Against::Behind);
    let line = gadulnos::raw::find_free_region(&list, size, &mut compared[0]);
    (line, compared[0])
}

/// Document 01's search, region by region, and how many times the loop's body ran.
fn counted(list: &[Region], next_addr: u64, size: u64) -> (Line, u64) {
    let size = u128::from(size);
    let mut addr = u128::from(next_addr);
    let mut compared = 0;
    'scan: while addr + size < u128::from(USER_WINDOW.1) {
        for region in list {
            compared += 1;
            let (start, end) = (u128::from(region.start), u128::from(region.start + region.size));
            if addr < end && start < addr + size {
                addr = end;
                continue 'scan;
            }
        }
        return (Line::met(addr as u64), compared);
    }
    (Line::refused(15), compared)
}

fn lists(options: &Options, stream: u64, kind: Kind) -> Checked {
    let mut random = options.random(stream);
    let (mut cases, mut again, mut stopped, mut played) = (0, 0, 0, 0);
    for _ in 0..options.amount {
        let list = drawn(&mut random, kind);
        for _ in 0..8 {
            let next_addr = next(&mut random, &list);
            let size = size(&mut random);
            let at = (list.len(), next_addr, size);
            let (line, compared) = search(&list, next_addr, size);
            equal_at(at, (line, compared), counted(&list, next_addr, size))?;
            let found = beside(&list, next_addr, size);
            played += u64::from(found.is_some());
            equal_at(at, line, found.unwrap_or(line))?;
            let n = list.len() as u64;
            holds(2 * compared <= n * (n + 3), "no more than n (n + 3) / 2 comparisons")?;
            cases += 1;
            again += u64::from(compared > n);
            stopped += u64::from(line.number == 15 && compared > 0);
        }
    }
    println!("  {kind:?}: {played} of {cases} beside the original, {again} started again");
    // A short run may not come to all.
    let seen = again > 0 && (stopped > 0 || !matches!(kind, Kind::Ending)) && 3 * played > cases;
    holds(seen || options.amount < 100, "searches that start again, find nothing, are played")?;
    Ok(cases)
}

/// What the original answers, where its sums fit and it does not round.
fn beside(list: &[Region], next_addr: u64, size: u64) -> Option<Line> {
    let high = list.iter().map(|region| region.start + region.size).chain([next_addr]).max();
    if size % PAGE != 0 || high.unwrap_or(0).checked_add(size).is_none() {
        return None;
    }
    access::set(list.iter().map(|r| (r.start, r.size, r.prot, r.flags)), next_addr);
    let found = access::find_free_region(size);
    access::reset();
    Some(found.map_or(Line::refused(15), Line::met))
}

fn drawn(random: &mut Random, kind: Kind) -> Vec<Region> {
    let any = random.below(257);
    let n = random.one_of(&[0, 1, 2, 8, 255, 256, any, any]);
    let mut start = match kind {
        Kind::Ending => USER_WINDOW.1 - (1 + random.below(n + 3)) * PAGE,
        _ => USER_WINDOW.0 + random.below(4) * PAGE,
    };
    let mut list = Vec::new();
    for _ in 0..n {
        let pages = match kind {
            Kind::Anywhere => random.one_of(&[1, 2, 700]),
            Kind::Adjoining => 1 + random.below(3),
            Kind::Overlapping => 1 + random.below(300),
            Kind::Ending => 1 + random.below(4),
        };
        let (prot, flags) = (random.word() as i32, random.word() as i32);
        list.push(Region { start, size: pages * PAGE, prot, flags });
        start += PAGE
            * match kind {
                Kind::Anywhere => 1 + random.below(1000),
                Kind::Adjoining => pages + random.below(16) / 15,
                Kind::Overlapping | Kind::Ending => 1 + random.below(2),
            };
    }
    list
}

/// Where a search starts: at the window's start, at, in or behind a region, or elsewhere.
fn next(random: &mut Random, list: &[Region]) -> u64 {
    let at = random.below(list.len().max(1) as u64) as usize;
    let Region { start, size, .. } = list.get(at).copied().unwrap_or(NONE);
    let inside = start + random.below(size / PAGE + 1) * PAGE;
    let first = list.first().map_or(USER_WINDOW.0, |region| region.start);
    let any = random.word() / PAGE * PAGE;
    let end = USER_WINDOW.1 - random.below(3) * PAGE;
    random.one_of(&[USER_WINDOW.0, first, first, start, inside, start + size, 0, end, LAST, any])
}

fn size(random: &mut Random) -> u64 {
    let pages = PAGE * (1 + random.below(20));
    let wide = USER_WINDOW.1 - USER_WINDOW.0 - random.below(3) * PAGE;
    let any = random.word() >> random.below(64);
    let sizes = [PAGE, PAGE, pages, pages, pages - 1, 0, 1, 700 * PAGE, wide, USER_WINDOW.1, any];
    random.one_of(&[&sizes[..], &[u64::MAX, LAST]].concat())
}

/// One byte at the last page below the end: free as it stands, and not as a page. A size that wraps there.
fn rounded() -> Result<(), String> {
    let last = USER_WINDOW.1 - PAGE;
    equal(search(&[], USER_WINDOW.0, LAST + 1), (Line::refused(15), 0))?;
    equal(search(&[], last, 1), (Line::met(last), 0))?;
    access::set([].into_iter(), last);
    let found = access::find_free_region(1);
    access::reset();
    equal(found, None)
}

/// 10, and the number stays.
fn broken(options: &Options) -> Checked {
    let mut random = options.random(44);
    let mut cases = 0;
    for n in 1..SLOTS {
        let i = random.below(n as u64) as usize;
        let sound = packed(&row(n), USER_WINDOW.0);
        let mut lists = vec![sound.clone(); 6];
        lists[0].count = 257 + random.word() / 2;
        lists[1].next_addr += 1 + random.below(PAGE - 1);
        lists[2].slots[i].size = 0;
        lists[3].slots[i].start += 8;
        lists[4].slots[n - 1].size = LAST;
        lists[5].slots[n] = lists[5].slots[i];
        lists[5].count += 1;
        let mut parts: Vec<Vec<u8>> = lists.iter().map(User::pack).collect();
        parts.push(sound.pack()[1..].to_vec());
        parts.push([sound.pack(), vec![0]].concat());
        parts.push(Vec::new());
        for (kind, part) in parts.iter().enumerate() {
            let size = random.one_of(&[0, PAGE, u64::MAX]);
            equal_at((n, kind), on_bytes(part, size), (Line::refused(10), OLD))?;
            cases += 1;
        }
    }
    Ok(cases)
}

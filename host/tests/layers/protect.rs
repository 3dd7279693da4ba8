//! mprotect (document 02, slip 1): examples worked out by hand, on four levels and on five, the model beside; and
//! that the model's two ways, page by page and level by level, and the port come to the same words.

use crate::example::{fixed, map, translate, Example, FRAMES};
use crate::model::Model;
use crate::options::Options;
use crate::port::Port;
use crate::report::{equal, equal_at, holds, Checked, Report};
use calls::{Call, LAST, PAGE, USER_WINDOW};
use gadulnos::raw::{Frames, Line, Parts, Region, User, LEVELS, MOST_LEVELS, SLOTS};
use std::collections::BTreeSet;
use trial::generate::Random;

const READ: i32 = 1;
const WRITE: i32 = 2;
const FLAGS: i32 = 0x22;

/// Where a fresh search of mmap finds room.
const START: u64 = USER_WINDOW.0;

/// What user code may: read and write, read alone, or neither.
const BOTH: [u64; 2] = [1, 1];
const READS: [u64; 2] = [1, 0];
const NEITHER: [u64; 2] = [0, 0];

type Run = fn(u64) -> Result<(), String>;

pub fn check(report: &mut Report, options: &Options) {
    let checks: [(&str, Run); 15] = [
        ("read and write, read, none, read and write", there_and_back),
        ("the order of checks", order),
        ("what is lent: no counter, but list, levels and root", lent),
        ("bit 1 of prot, and all 32 bits stored", signed),
        ("every other bit of an entry stays", other_bits),
        ("an entry above that is not writable stays so", read_only_above),
        ("a page that is in no lent frame", off_board),
        ("HUGE on the last level but one is not looked at", below_huge),
        ("an entry on the way that is the page's own too", own_table),
        ("a table that two regions have", shared_table),
        ("regions of lengths around powers of two", lengths),
        ("pages that come round", come_round),
        ("a region of nearly 2^64 bytes", whole_space),
        ("copy-on-write pages stay marked", marked_pages),
        ("both regions released, in either order, as if there had been none", released),
    ];
    for levels in [LEVELS, MOST_LEVELS] {
        for (name, run) in checks {
            report.check(&format!("mprotect on {levels} levels: {name}"), run(levels));
        }
    }
    let both = both_ways(&mut options.random(40), 40 * options.amount);
    report.tell("mprotect: the model page by page and level by level, and the port", both);
}

fn protect(addr: u64, size: u64, prot: i32) -> Call {
    Call::Mprotect { addr, size, prot }
}

fn mmap(pages: u64, prot: i32) -> Call {
    Call::Mmap { given: false, addr: 0, size: pages * PAGE, prot, flags: FLAGS }
}

/// The regions, each with its start, size, prot and flags.
fn regions(board: &Example) -> Result<Vec<Region>, String> {
    let user = User::unpack(&board.port.user).ok_or("no list")?;
    Ok(user.slots[..user.count as usize].to_vec())
}

/// A board with a region of three pages and behind it, below the same last table, one of one page. The first page has
/// frame 0x101, the tables follow, on four levels 0x102 to 0x104, and then the other pages. Beside it the frame of
/// the last table.
fn two_regions(levels: u64) -> Result<(Example, u64), String> {
    let mut board = Example::fresh(levels, FRAMES)?;
    let second = START + 3 * PAGE;
    board.play(&[(mmap(3, READ | WRITE), 0, START), (mmap(1, READ | WRITE), 0, second)])?;
    let table = 0x100 + levels;
    let leaf = |frame: u64| frame << 12 | 7;
    let [one, two, other] = [1, 2, 3].map(|i| leaf(table + i));
    board.words(&[(table, 0, leaf(0x101)), (table, 1, one), (table, 2, two), (table, 3, other)])?;
    Ok((board, table))
}

fn one_region(start: u64, size: u64) -> User {
    let mut slots = [Region { start: 0, size: 0, prot: 0, flags: 0 }; SLOTS];
    slots[0] = Region { start, size, prot: READ | WRITE, flags: FLAGS };
    User { count: 1, next_addr: START, slots }
}

/// Lends a list of one region.
fn lend_region(board: &mut Example, start: u64, size: u64) {
    lend_list(board, one_region(start, size));
}

fn lend_list(board: &mut Example, user: User) {
    board.port.user.copy_from_slice(&user.pack());
    board.model.user = Some(user);
}

/// The second page is not mapped, and stays so. PROT_NONE leaves PRESENT and USER: the page may be read.
fn there_and_back(levels: u64) -> Result<(), String> {
    let (mut board, table) = two_regions(levels)?;
    let frames = [0x101, table + 2, table + 3].map(|frame| frame << 12);
    board.play(&[(Call::UnmapPage { virt: START + PAGE }, 0, table + 1)])?;
    let other = Region { start: START + 3 * PAGE, size: PAGE, prot: READ | WRITE, flags: FLAGS };
    for (prot, size, bits, may) in [
        (READ, 3 * PAGE, 5, READS),
        (0, 2 * PAGE + 1, 5, READS),
        (WRITE, 3 * PAGE, 7, BOTH),
        (0, 3 * PAGE - 1, 5, READS),
        (READ | WRITE, 3 * PAGE, 7, BOTH),
    ] {
        board.play(&[(protect(START, size, prot), 0, 0)])?;
        board.words(&[
            (table, 0, frames[0] | bits),
            (table, 1, 0),
            (table, 2, frames[1] | bits),
            (table, 3, frames[2] | 7),
            (table - 1, 0, table << 12 | 7),
        ])?;
        board.may(START, may)?;
        board.may(START + PAGE, NEITHER)?;
        board.may(START + 2 * PAGE, may)?;
        board.may(START + 3 * PAGE, BOTH)?;
        let first = Region { start: START, size: 3 * PAGE, prot, flags: FLAGS };
        equal(regions(&board)?, vec![first, other])?;
        board.counter(levels + 4)?;
    }
    board.play(&[
        (translate(START + 5), 0, 0x10_1005),
        (Call::Munmap { addr: START, size: 3 * PAGE }, 0, 0),
        (protect(START, 3 * PAGE, 0), 16, 0),
        (translate(START), 14, 0),
    ])?;
    // The page that unmap_page took away is still marked.
    board.counter(levels + 2)?;
    equal(regions(&board)?, vec![other])
}

/// '1, 2, 3, 16': where two stand against a call, the first answers. A refusal changes nothing (the model's words).
fn order(levels: u64) -> Result<(), String> {
    let (mut board, _) = two_regions(levels)?;
    let size = 3 * PAGE;
    let kernel = 0xffff_ffc0_0000_0000;
    board.play(&[
        (protect(START, 0, 0), 1, 0),
        (protect(START + 1, 0, 0), 1, 0),
        (protect(START + 1, size, 0), 2, 0),
        (protect(START + 1, LAST + 1, 0), 2, 0),
        (protect(START, LAST + 1, 0), 3, 0),
        (protect(START + 5 * PAGE, u64::MAX, 0), 3, 0),
        (protect(START, LAST, 0), 16, 0),
        (protect(START, size + 1, 0), 16, 0),
        (protect(START, size - PAGE, 0), 16, 0),
        (protect(START, size + PAGE, 0), 16, 0),
        (protect(START + PAGE, 2 * PAGE, 0), 16, 0),
        (protect(START + 4 * PAGE, PAGE, 0), 16, 0),
        (Call::Vmalloc { size: 1 }, 0, kernel),
        (protect(kernel, 1, 0), 16, 0),
    ])?;
    board.may(START, BOTH)
}

/// 10 comes first, for what the call is lent. A wrong counter makes munmap 10, and is none of mprotect's.
fn lent(levels: u64) -> Result<(), String> {
    let (mut board, _) = two_regions(levels)?;
    let record = board.port.frames();
    let sound = User::unpack(&board.port.user).ok_or("no list")?;
    let munmap = Call::Munmap { addr: START, size: 3 * PAGE };
    board.lend_fields(&Frames { allocated: record.allocated + 1, ..record }.pack());
    board.play(&[(munmap, 10, 0), (protect(START, 3 * PAGE, 0), 0, 0)])?;
    for levels in [0, 3, 6, 1 << 32 | levels] {
        board.lend_fields(&Frames { levels, ..record }.pack());
        board.play(&[(protect(START + 1, 0, 0), 10, 0)])?;
    }
    board.lend_fields(&record.pack());
    let mut moved = sound.clone();
    moved.next_addr += 1;
    let mut falling = sound.clone();
    falling.slots.swap(0, 1);
    let mut empty = sound.clone();
    empty.slots[1].size = 0;
    let mut long = sound.clone();
    long.count = 257;
    for list in [moved, falling, empty, long] {
        lend_list(&mut board, list);
        board.play(&[(protect(START + 1, 0, 0), 10, 0)])?;
    }
    lend_list(&mut board, sound);
    let root = board.port.root;
    (board.port.root, board.model.root) = (0x100 + FRAMES, 0x100 + FRAMES);
    board.play(&[(protect(START + 1, 0, 0), 10, 0)])?;
    (board.port.root, board.model.root) = (root, root);
    board.play(&[(protect(START + 1, 0, 0), 1, 0)])
}

/// 'a negative value counts by its two's-complement bits'.
fn signed(levels: u64) -> Result<(), String> {
    let (mut board, table) = two_regions(levels)?;
    for (prot, bits) in [
        (i32::MIN, 5),
        (-1, 7),
        (-3, 5),
        (i32::MAX, 7),
        (5, 5),
        (6, 7),
        (0x7fff_fffd, 5),
        (i32::MIN + 2, 7),
    ] {
        board.play(&[(protect(START, 3 * PAGE, prot), 0, 0)])?;
        board.words(&[(table, 0, 0x10_1000 | bits), (table, 3, (table + 3) << 12 | 7)])?;
        let stored = regions(&board)?;
        let told = stored.iter().map(|region| (region.prot, region.flags));
        equal_at(prot, told.collect(), vec![(prot, FLAGS), (READ | WRITE, FLAGS)])?;
    }
    Ok(())
}

/// An entry with every bit that a processor knows and with those it ignores, and one with none but PRESENT. Where
/// PRESENT is clear, whatever else stands there stays.
fn other_bits(levels: u64) -> Result<(), String> {
    let (mut board, table) = two_regions(levels)?;
    let all = u64::MAX << 52 | 0x10_1fff;
    board.lend(&[(table, 0, all), (table, 1, 1), (table, 2, u64::MAX - 1)]);
    board.play(&[(protect(START, 3 * PAGE, READ), 0, 0)])?;
    board.words(&[(table, 0, all - 2), (table, 1, 1), (table, 2, u64::MAX - 1)])?;
    board.play(&[(protect(START, 3 * PAGE, WRITE), 0, 0)])?;
    board.words(&[(table, 0, all), (table, 1, 3), (table, 2, u64::MAX - 1)])
}

/// Nor may user code write then.
fn read_only_above(levels: u64) -> Result<(), String> {
    let (mut board, table) = two_regions(levels)?;
    let above = table << 12 | 5;
    board.lend(&[(table - 1, 0, above)]);
    for (prot, bits) in [(READ, 5), (WRITE, 7)] {
        board.play(&[(protect(START, 3 * PAGE, prot), 0, 0)])?;
        board.words(&[(table - 1, 0, above), (table, 0, 0x10_1000 | bits)])?;
        board.may(START, READS)?;
    }
    Ok(())
}

fn off_board(levels: u64) -> Result<(), String> {
    let (mut board, table) = two_regions(levels)?;
    board.play(&[
        (Call::UnmapPage { virt: START }, 0, 0x101),
        (map(START, 0x5_0000_0000), 0, 0),
        (protect(START, 3 * PAGE, 0), 0, 0),
        (translate(START), 0, 0x5_0000_0000),
    ])?;
    board.words(&[(table, 0, 0x5_0000_0005)])
}

/// unmap_page follows such an entry, and so does mprotect; translate takes it for a large page. A 2 MiB page of
/// map_huge_page stands on the last level, and is a page as any.
fn below_huge(levels: u64) -> Result<(), String> {
    let (mut board, table) = two_regions(levels)?;
    board.lend(&[(table - 1, 0, table << 12 | 0x87), (table, 1, 0x20_0087)]);
    board.play(&[(protect(START, 3 * PAGE, READ), 0, 0), (translate(START), 0, table << 12)])?;
    board.words(&[
        (table - 1, 0, table << 12 | 0x87),
        (table, 0, 0x10_1005),
        (table, 1, 0x20_0085),
        (table, 2, (table + 2) << 12 | 5),
    ])?;
    // One that leads outside the lent frames: no page is found.
    board.lend(&[(table - 1, 0, 0x4000_0087)]);
    board.play(&[(protect(START, 3 * PAGE, WRITE), 0, 0)])?;
    board.words(&[(table - 1, 0, 0x4000_0087), (table, 0, 0x10_1005), (table, 1, 0x20_0085)])
}

/// The root leads to itself: the last entry of page 0 is the root's first, which every level reads.
fn own_table(levels: u64) -> Result<(), String> {
    let mut board = Example::fresh(levels, FRAMES)?;
    board.lend(&[(0x100, 0, 0x10_0007), (0x100, 1, 0x10_0007)]);
    lend_region(&mut board, 0, PAGE);
    board.may(0, BOTH)?;
    board.play(&[(protect(0, 1, READ), 0, 0), (translate(0), 0, 0x10_0000)])?;
    board.words(&[(0x100, 0, 0x10_0005), (0x100, 1, 0x10_0007)])?;
    board.may(0, READS)?;
    // 2 GiB from page 1 on: wherever the two entries lead, the last entries are these two again.
    lend_region(&mut board, PAGE, 1 << 31);
    board.play(&[(protect(PAGE, 1 << 31, READ), 0, 0), (translate(PAGE), 0, 0x10_0000)])?;
    board.words(&[(0x100, 0, 0x10_0005), (0x100, 1, 0x10_0005)])?;
    board.play(&[(protect(PAGE, 1 << 31, WRITE), 0, 0)])?;
    board.words(&[(0x100, 0, 0x10_0007), (0x100, 1, 0x10_0007)])
}

/// Two entries of the root lead to the same tables: what one region's pages get, the other's have.
fn shared_table(levels: u64) -> Result<(), String> {
    let (mut board, table) = two_regions(levels)?;
    let top = 3 + 9 * levels;
    let (index, alias) = ((START >> top) % 512, START + (1 << top));
    board.lend(&[(0x100, index + 1, 0x10_2007)]);
    board.play(&[(protect(START, 3 * PAGE, READ), 0, 0)])?;
    board.may(alias + PAGE, READS)?;
    board.may(alias + 3 * PAGE, BOTH)?;
    lend_region(&mut board, alias, 2 * PAGE);
    board.play(&[(protect(alias, 2 * PAGE, WRITE), 0, 0)])?;
    board.words(&[(table, 0, 0x10_1007), (table, 2, (table + 2) << 12 | 5)])?;
    board.may(START, BOTH)?;
    board.may(START + 2 * PAGE, READS)
}

/// From the midst of a table on: the first page and the last are the region's, their neighbours are not.
fn lengths(levels: u64) -> Result<(), String> {
    let start = START + 0x12_3000;
    for power in [1, 5, 8, 9, 10, 13, 14, 16, 18, 27] {
        let powers = [-1, 0, 1].map(|more| ((1i64 << power) + more) as u64);
        for pages in powers {
            let last = start + (pages - 1) * PAGE;
            let mut board = Example::fresh(levels, 2 * FRAMES)?;
            let mapped = BTreeSet::from([start - PAGE, start, last, last + PAGE]);
            for virt in mapped {
                board.play(&[(map(virt, 0x20_0000), 0, 0)])?;
            }
            lend_region(&mut board, start, pages * PAGE);
            for (prot, may) in [(READ, READS), (WRITE, BOTH), (0, READS)] {
                board.play(&[(protect(start, pages * PAGE, prot), 0, 0)])?;
                let wanted = [(start, may), (last, may), (start - PAGE, BOTH), (last + PAGE, BOTH)];
                for (virt, may) in wanted {
                    board.may(virt, may).map_err(|why| format!("{pages} pages: {why}"))?;
                }
            }
        }
    }
    Ok(())
}

/// The last page that the indices tell apart, and the one behind it, which has index 0 on every level.
fn come_round(levels: u64) -> Result<(), String> {
    let last = (1 << (12 + 9 * levels)) - PAGE;
    let mut board = Example::fresh(levels, FRAMES)?;
    board.play(&[
        (fixed(last, 2 * PAGE), 0, last),
        (map(PAGE, 0x20_0000), 0, 0),
        (protect(last, 2 * PAGE, READ), 0, 0),
    ])?;
    for (page, may) in [(last, READS), (0, READS), (PAGE, BOTH)] {
        board.may(page, may)?;
    }
    board.play(&[(protect(last, 2 * PAGE, WRITE), 0, 0)])?;
    board.may(last, BOTH)?;
    board.may(0, BOTH)
}

/// It has every page, whichever bits stand above the top index; one of 2^30 bytes has those of its own.
fn whole_space(levels: u64) -> Result<(), String> {
    let (mut board, table) = two_regions(levels)?;
    let kernel = 0xffff_ffc0_0000_0000;
    board.play(&[(map(kernel, 0x30_0000), 0, 0), (map(0, 0x20_0000), 0, 0)])?;
    lend_region(&mut board, PAGE, LAST - PAGE);
    board.play(&[(protect(PAGE, LAST - PAGE, READ), 0, 0)])?;
    let leaf = |frame: u64, bits| frame << 12 | bits;
    board.words(&[(table, 0, leaf(0x101, 5)), (table, 3, leaf(table + 3, 5))])?;
    board.may(0, READS)?;
    board.may(kernel, READS)?;
    // The entries that are still writable: one above each table, which the root and four pages are not.
    let writable = board.port.words.iter().filter(|word| **word & 3 == 3).count() as u64;
    equal(writable, board.port.frames().allocated - 5)?;
    lend_region(&mut board, START, 1 << 30);
    board.play(&[(protect(START, 1 << 30, WRITE), 0, 0), (translate(kernel), 0, 0x30_0000)])?;
    board.words(&[(table, 0, leaf(0x101, 7)), (table, 3, leaf(table + 3, 7))])?;
    board.may(0, READS)?;
    board.may(kernel, READS)
}

/// mprotect looks at no marked page, and marks none.
fn marked_pages(levels: u64) -> Result<(), String> {
    let (mut board, _) = two_regions(levels)?;
    board.play(&[
        (Call::MarkCow { addr: START }, 0, 0),
        (protect(START, 3 * PAGE, READ), 0, 0),
        (Call::IsCow { addr: START }, 0, 1),
        (protect(START, 3 * PAGE, WRITE), 0, 0),
        (Call::IsCow { addr: START }, 0, 1),
        (Call::IsCow { addr: START + PAGE }, 0, 0),
    ])?;
    board.may(START, BOTH)
}

/// Every word and record at the end is that of the same calls without the mprotects.
fn released(levels: u64) -> Result<(), String> {
    let [first, second] = [(START, 3), (START + 3 * PAGE, 1)];
    let munmap = |(addr, pages)| (Call::Munmap { addr, size: pages * PAGE }, 0, 0);
    let mut ends = Vec::new();
    for (protects, order) in
        [(false, [first, second]), (true, [first, second]), (true, [second, first])]
    {
        let (mut board, _) = two_regions(levels)?;
        if protects {
            board.play(&[(protect(START, 3 * PAGE, 0), 0, 0), (protect(second.0, 1, -3), 0, 0)])?;
        }
        board.play(&[munmap(order[0]), munmap(order[1])])?;
        board.counter(levels)?;
        let Port { words, fields, bits, kernel, user, marked, .. } = &board.port;
        let parts = [&fields[..], &bits[..], kernel, user, marked].concat();
        ends.push((words.to_vec(), parts));
    }
    holds(ends[0] == ends[1] && ends[0] == ends[2], "one and the same end")
}

/// Regions of up to 2^14 pages anywhere on such boards, many of a length about that from which the port remembers
/// tables. Beside the model's two ways the port's call.
fn both_ways(random: &mut Random, cases: u64) -> Checked {
    let mut changed = 0;
    for case in 0..cases {
        let mut board = looped(random)?;
        let before = Model::of(&board);
        let start = (random.word() >> random.below(52) & !(PAGE - 1)).min(LAST - PAGE);
        let most = 1 << (1 + random.below(14));
        let any = 1 + random.below(most);
        let pages = random.one_of(&[any, 8191, 8192, 8193]).min((LAST - start) / PAGE);
        let writable = random.chance(1, 2);
        let [one, other] = before.protected_both_ways(start, pages, writable);
        holds(one == other, &format!("case {case}: both ways to come to the same words"))?;
        board.user = one_region(start, pages * PAGE).pack();
        let prot = if writable { WRITE } else { READ };
        equal(board.mprotect(start, pages * PAGE, prot), Line::met(0))?;
        holds(one == board.words, &format!("case {case}: the port's words"))?;
        changed += u64::from(one != before.words);
    }
    holds(changed * 5 >= cases, &format!("a change in many of {cases} cases, not {changed}"))?;
    Ok(cases)
}

/// Random entries on few frames, so that tables loop and are shared.
fn looped(random: &mut Random) -> Result<Parts, String> {
    let levels = random.one_of(&[LEVELS, MOST_LEVELS]);
    let total = 1 + random.below(6);
    let mut board = Parts::lend(total as usize);
    equal(board.start_levels(0x10_0000, 0x10_0000 + total * PAGE, levels), Line::met(0))?;
    let one_in = random.one_of(&[1, 1, 2, 4]);
    board.words.fill_with(|| match random.chance(1, one_in) {
        true => (0x100 + random.below(total + 1)) << 12 | random.below(256) | 1,
        false => random.word() & !1,
    });
    Ok(board)
}

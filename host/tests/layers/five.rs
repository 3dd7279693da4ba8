//! Examples on boards of five levels, worked out from documents 01 and 02 (slip 13) by hand, and what is
//! refused of other numbers of levels. One more stands on four: tables reached twice in a large region.

use crate::example::{anywhere, fixed, hint, huge, map, translate, Example, FRAMES, FROM};
use crate::report::{equal, equal_at, holds, Check, Report};
use calls::{Call, KERNEL_WINDOW, PAGE, TEMPORARY, USER_WINDOW};
use gadulnos::raw::{Kernel, Line, Region, Slot, User, LEVELS, MOST_LEVELS};

pub fn check(report: &mut Report) {
    let checks: [Check; 12] = [
        ("the worked tape", worked_tape),
        ("a vmalloc without a frame for its last table", one_table_short),
        ("bits 63 to 57 are ignored, bit 56 is not", ignored_bits),
        ("a fixed mmap under the kernel window's alias", window_alias),
        ("a fixed mmap up to 2^56", highest_range),
        ("2^47 and 0xffff800000000000 are two pages", two_halves),
        ("a fault at 2^47", fault_above),
        ("a copy of a page with four of the temporary page's indices", near_copy),
        ("a copy of a page with all five", same_copy),
        ("starts with other numbers of levels", starts),
        ("fields of 24 bytes", old_layout),
        ("a translation lent four levels", other_levels),
    ];
    for (name, run) in checks {
        report.check(&format!("five levels: {name}"), run());
    }
    report.check("four levels: tables on the way that are pages too", twice_reached());
}

fn five() -> Result<Example, String> {
    Example::fresh(MOST_LEVELS, FRAMES)
}

fn worked_tape() -> Result<(), String> {
    let mut board = five()?;
    board.play(&[(Call::Vmalloc { size: 1 }, 0, 0xffff_ffc0_0000_0000)])?;
    board.words(&[
        (0x100, 511, 0x10_2003),
        (0x102, 511, 0x10_3003),
        (0x103, 256, 0x10_4003),
        (0x104, 0, 0x10_5003),
        (0x105, 0, 0x10_1003),
    ])?;
    board.play(&[
        (translate(0xffff_ffc0_0000_0010), 0, 0x10_1010),
        (Call::Vfree { addr: 0xffff_ffc0_0000_0000 }, 0, 0),
        (anywhere(5000), 0, 0x1000_0000_0000),
    ])?;
    board.words(&[
        (0x100, 0, 0x10_6007),
        (0x106, 32, 0x10_7007),
        (0x107, 0, 0x10_8007),
        (0x108, 0, 0x10_9007),
        (0x109, 0, 0x10_1007),
        (0x109, 1, 0x10_a007),
    ])?;
    board.counter(11)
}

/// Root, page and four tables are six frames. With five, 'the region is free with its size cut, split and
/// unmerged; 13 leaves one more frame marked'.
fn one_table_short() -> Result<(), String> {
    let call = Call::Vmalloc { size: 1 };
    let mut board = Example::fresh(MOST_LEVELS, 5)?;
    board.play(&[(call, 13, 0)])?;
    board.counter(5)?;
    board.words(&[(0x100, 511, 0x10_2003), (0x102, 511, 0x10_3003), (0x103, 256, 0x10_4003)])?;
    holds(board.frame(0x104).iter().all(|word| *word == 0), "an empty third table")?;
    let kernel = Kernel::unpack(&board.port.kernel).ok_or("no list")?;
    let (start, end) = KERNEL_WINDOW;
    let free = |start, size| Slot { start, size, used: false };
    equal(kernel.count, 2)?;
    let cut = [free(start, PAGE), free(start + PAGE, end - start - PAGE)];
    equal(&kernel.slots[..2], &cut[..])?;

    let mut board = Example::fresh(MOST_LEVELS, 6)?;
    board.play(&[(call, 0, KERNEL_WINDOW.0)])?;
    board.counter(6)
}

fn ignored_bits() -> Result<(), String> {
    let virt = 0x0012_3456_789a_b000;
    for bit in 57..64 {
        let other = virt ^ 1 << bit;
        let mut board = five()?;
        board.play(&[
            (map(virt, 0x20_0000), 0, 0),
            (map(other, 0x20_0000), 12, 0),
            (translate(other), 0, 0x20_0000),
        ])?;
    }
    five()?.play(&[(map(virt, 0x20_0000), 0, 0), (map(virt ^ 1 << 56, 0x20_0000), 0, 0)])
}

/// An address with the window's five indices.
fn window_alias() -> Result<(), String> {
    let alias = 0x01ff_ffc0_0000_0000;
    let mut board = five()?;
    board.play(&[(fixed(alias, 1), 0, alias), (Call::Vmalloc { size: 1 }, 13, 0)])?;
    // The page, four tables and the root, and the frame that 13 leaves marked.
    board.counter(7)
}

/// next_addr is then 2^56, above the user window.
fn highest_range() -> Result<(), String> {
    let last = (1 << 56) - PAGE;
    five()?.play(&[
        (fixed(last, PAGE), 0, last),
        (anywhere(1), 15, 0),
        (hint(USER_WINDOW.0, 1), 0, USER_WINDOW.0),
    ])
}

/// On four levels they are one.
fn two_halves() -> Result<(), String> {
    for (levels, number, value) in [(LEVELS, 0, 0x10_1000), (MOST_LEVELS, 14, 0)] {
        Example::fresh(levels, FRAMES)?.play(&[
            (fixed(1 << 47, PAGE), 0, 1 << 47),
            (translate(0xffff_8000_0000_0000), number, value),
        ])?;
    }
    Ok(())
}

/// The first path's ranges do not move; the second has none.
fn fault_above() -> Result<(), String> {
    five()?.play(&[
        (Call::Fault { addr: 1 << 47, code: 0 }, 6, 0),
        (Call::SecondFault { addr: 1 << 47, code: 0 }, 0, 0),
    ])
}

/// A page of frame 0x101, marked and then copied to frame 0x106. Both held a word of their own.
fn copied(page: u64) -> Result<Example, String> {
    let mut board = five()?;
    board.play(&[(fixed(page, PAGE), 0, page), (Call::MarkCow { addr: page }, 0, 0)])?;
    board.words(&[(0x105, 496, 0x10_1007)])?;
    board.lend(&[(0x101, 7, 0x5eed), (0x106, 7, 0xf00d)]);
    board.play(&[
        (Call::Fault { addr: page, code: 7 }, 0, 0),
        (Call::IsCow { addr: page }, 0, 0),
        (translate(page), 0, 0x10_6000),
    ])?;
    Ok(board)
}

/// On four levels these are all of its indices. The copy makes the temporary page's four tables; the old
/// frame is freed.
fn near_copy() -> Result<(), String> {
    let mut board = copied(0x0000_ffff_ffff_0000)?;
    board.words(&[(0x106, 7, 0x5eed), (0x100, 511, 0x10_7003)])?;
    board.play(&[(translate(TEMPORARY), 14, 0), (Call::IsAllocated { frame: 0x101 }, 0, 0)])?;
    board.counter(10)
}

/// The temporary page is then the page itself: what is copied is the new frame, and the old one, which is
/// no longer mapped where it would be freed, stays marked.
fn same_copy() -> Result<(), String> {
    let mut board = copied(0x01ff_ffff_ffff_0000)?;
    board.words(&[(0x106, 7, 0xf00d)])?;
    let still = Call::IsAllocated { frame: 0x101 };
    board.play(&[(translate(TEMPORARY), 0, 0x10_6000), (still, 0, 1)])?;
    board.counter(7)
}

/// 10 comes before 11. Nothing is cut off a number.
fn starts() -> Result<(), String> {
    let mut board = five()?;
    board.play(&[(Call::Vmalloc { size: 1 }, 0, KERNEL_WINDOW.0)])?;
    board.refused_start(FROM, 6, 10)?;
    board.refused_start(FROM, MOST_LEVELS, 11)?;
    for levels in [0, 3, 6, 0x1_0000_0004, 0x1_0000_0005, u64::MAX] {
        board.refused_start(FROM + FRAMES * PAGE, levels, 10)?;
    }
    Ok(())
}

/// The layout before there were levels.
fn old_layout() -> Result<(), String> {
    let mut board = five()?;
    let fields = board.port.fields[..24].to_vec();
    board.lend_fields(&fields);
    let page = USER_WINDOW.0;
    let calls = [
        Call::Vmalloc { size: 1 },
        Call::Vfree { addr: page },
        anywhere(1),
        Call::Munmap { addr: page, size: 1 },
        Call::Fault { addr: page, code: 0 },
        Call::SecondFault { addr: page, code: 0 },
        map(page, 0),
        huge(0, 0, true),
        Call::AllocateFrame,
        Call::DeallocateFrame { frame: 0x100 },
        Call::MarkAllocated { frame: 0x101 },
        Call::IsAllocated { frame: 0x100 },
        Call::Counts,
    ];
    board.play(&calls.map(|call| (call, 10, 0)))?;
    let to = FROM + FRAMES * PAGE;
    equal(board.port.init(FROM, to), Line::refused(10))?;
    equal(board.port.start(FROM, to), Line::refused(10))?;
    equal(board.port.start_levels(FROM, to, MOST_LEVELS), Line::refused(10))?;
    equal(&board.port.fields[..], &fields[..])?;
    board.model.compare(&board.port)
}

/// The walk then begins with the second index, which leads on to 0x102; at the third 0x102 has no entry.
fn other_levels() -> Result<(), String> {
    let virt = KERNEL_WINDOW.0;
    let mut board = five()?;
    board.play(&[(Call::Vmalloc { size: 1 }, 0, virt), (translate(virt), 0, 0x10_1000)])?;
    let lent =
        |levels| gadulnos::raw::translate(&board.port.words, 0x100, FRAMES, levels, 0x100, virt);
    equal_at(4, lent(4), Line::refused(14))?;
    equal_at(5, lent(5), Line::met(0x10_1000))
}

/// Each of the first two entries of 0x101 leads, by 0x102, to 0x101 as a last table, so that it is a page of
/// frame 0x102 as well. Page 0 clears the first; the second is page 1 of the second GiB.
fn twice_reached() -> Result<(), String> {
    let mut board = Example::fresh(LEVELS, FRAMES)?;
    let taken = [0x101, 0x102].map(|frame| (Call::AllocateFrame, 0, frame));
    board.play(&taken)?;
    board.lend(&[
        (0x100, 0, 0x10_1007),
        (0x101, 0, 0x10_2007),
        (0x101, 1, 0x10_2007),
        (0x102, 0, 0x10_1007),
    ]);
    let size = 2 << 30;
    let mut user = User::unpack(&board.port.user).ok_or("no list")?;
    user.count = 1;
    user.slots[0] = Region { start: 0, size, prot: 0, flags: 0 };
    board.port.user.copy_from_slice(&user.pack());
    board.model.user = Some(user);
    board.counter(3)?;
    board.play(&[(Call::Munmap { addr: 0, size }, 0, 0)])?;
    holds(!board.model.gave_up, "the model to come to the end")?;
    board.words(&[(0x100, 0, 0x10_1007), (0x101, 0, 0), (0x101, 1, 0), (0x102, 0, 0x10_1007)])?;
    board.play(&[(Call::IsAllocated { frame: 0x102 }, 0, 0)])?;
    board.counter(2)
}

//! The working of translations (document 02, slip 4): examples worked out by hand, each row written down, and
//! random words, where each row is read again.

use crate::example::{huge, map, Example, FRAMES};
use crate::guard::{Against, Guarded};
use crate::options::Options;
use crate::port;
use crate::reader::{self, Tables};
use crate::report::{equal, equal_at, holds, Check, Checked, Report};
use calls::{Call, KERNEL_WINDOW};
use gadulnos::raw::Verdict::{self, Absent, Followed, LargePage, Last, Outside};
use gadulnos::raw::{Frames, Line, Row, Shown, LEVELS, MOST_LEVELS, SHOWN_NUMBERS};
use std::collections::BTreeSet;
use trial::generate::Random;

/// A row that is to come: level, table, index, word and verdict.
type Wanted = (u64, u64, u64, u64, Verdict);

pub fn check(report: &mut Report, options: &Options) {
    let checks: [Check; 12] = [
        ("nothing is mapped", nothing),
        ("an entry with every bit but PRESENT", all_but_present),
        ("the worked tape's page, and the page behind it", worked_page),
        ("the worked tape's page on five levels", worked_page_of_five),
        ("a large page, on the board and off it", large_page),
        ("HUGE on other levels", huge_elsewhere),
        ("a table off the board", table_off_board),
        ("a page off the board", page_off_board),
        ("a root that names itself", itself),
        ("bits that are ignored", ignored_bits),
        ("broken records and other numbers of levels", broken),
        ("the sentences, and numbers that stand for no working", sentences),
    ];
    for (name, run) in checks {
        report.check(&format!("working: {name}"), run());
    }
    report.tell("working: random words, each row read again", random_words(options));
}

/// That a translation answers so by these rows: the port, which writes every number, its safe functions, and
/// the model. No part of the board changes.
fn shows(
    board: &mut Example,
    virt: u64,
    (number, value): (u64, u64),
    wanted: &[Wanted],
) -> Result<(), String> {
    let answer = Line { number, value };
    let mut numbers = [0; SHOWN_NUMBERS];
    numbers[0] = wanted.len() as u64;
    for (to, &(level, frame, index, word, verdict)) in numbers[1..].chunks_mut(5).zip(wanted) {
        to.copy_from_slice(&[level, frame, index, word, verdict as u64]);
    }
    let port = &board.port;
    let shown = port::show_translate(&port.words, port.frames(), port.root, virt);
    equal_at(virt, shown, (answer, numbers))?;
    equal_at(virt, port.translate(virt), answer)?;
    let row = |&(level, frame, index, word, verdict)| Row { level, frame, index, word, verdict };
    let rows = wanted.iter().map(row).collect();
    equal_at(virt, port.show_translate(virt), Shown { answer, rows })?;
    equal_at(virt, board.model.show_translate(virt), (answer, numbers))?;
    board.model.compare(&board.port)
}

fn four() -> Result<Example, String> {
    Example::fresh(LEVELS, FRAMES)
}

fn five() -> Result<Example, String> {
    Example::fresh(MOST_LEVELS, FRAMES)
}

fn nothing() -> Result<(), String> {
    shows(&mut four()?, 0x1000, (14, 0), &[(4, 0x100, 0, 0, Absent)])?;
    shows(&mut four()?, u64::MAX, (14, 0), &[(4, 0x100, 511, 0, Absent)])?;
    shows(&mut five()?, u64::MAX, (14, 0), &[(5, 0x100, 511, 0, Absent)])
}

/// On each level of a walk along entries 0: neither HUGE nor an address counts where PRESENT is clear.
fn all_but_present() -> Result<(), String> {
    let word = u64::MAX - 1;
    let rows = [
        (4, 0x100, 0, 0x10_1007, Followed),
        (3, 0x101, 0, 0x10_2007, Followed),
        (2, 0x102, 0, 0x10_3007, Followed),
        (1, 0x103, 0, 0x20_0007, Last),
    ];
    for (k, &(level, frame, index, _, _)) in rows.iter().enumerate() {
        let mut board = four()?;
        board.play(&[(map(0, 0x20_0000), 0, 0)])?;
        shows(&mut board, 0xabc, (0, 0x20_0abc), &rows)?;
        board.lend(&[(frame, index, word)]);
        let way = [&rows[..k], &[(level, frame, index, word, Absent)]].concat();
        shows(&mut board, 0xabc, (14, 0), &way)?;
    }
    Ok(())
}

/// Document 01's tape: vmalloc 1, then translate ffffffc000000010.
fn worked_page() -> Result<(), String> {
    let mut board = four()?;
    board.play(&[(Call::Vmalloc { size: 1 }, 0, KERNEL_WINDOW.0)])?;
    let way = [
        (4, 0x100, 511, 0x10_2003, Followed),
        (3, 0x102, 256, 0x10_3003, Followed),
        (2, 0x103, 0, 0x10_4003, Followed),
    ];
    let page = [&way[..], &[(1, 0x104, 0, 0x10_1003, Last)]].concat();
    shows(&mut board, 0xffff_ffc0_0000_0010, (0, 0x10_1010), &page)?;
    let behind = [&way[..], &[(1, 0x104, 1, 0, Absent)]].concat();
    shows(&mut board, 0xffff_ffc0_0000_1010, (14, 0), &behind)
}

fn worked_page_of_five() -> Result<(), String> {
    let mut board = five()?;
    board.play(&[(Call::Vmalloc { size: 1 }, 0, KERNEL_WINDOW.0)])?;
    let rows = [
        (5, 0x100, 511, 0x10_2003, Followed),
        (4, 0x102, 511, 0x10_3003, Followed),
        (3, 0x103, 256, 0x10_4003, Followed),
        (2, 0x104, 0, 0x10_5003, Followed),
        (1, 0x105, 0, 0x10_1003, Last),
    ];
    shows(&mut board, 0xffff_ffc0_0000_0010, (0, 0x10_1010), &rows)
}

/// The low 21 bits of the address are added to the page's, which need not be a multiple of 2 MiB.
fn large_page() -> Result<(), String> {
    let mut board = four()?;
    board.play(&[(huge(0x4000_0000, 0x4000_0000, true), 0, 0)])?;
    for (word, virt, phys) in [
        (0x4000_0087, 0x4001_2345, 0x4001_2345), // off the board
        (0x10_0087, 0x4001_2345, 0x11_2345),     // the root's frame
        (0x10_f087, 0x401f_ffff, 0x30_efff),     // the board's last frame
        (0x11_0087, 0x401f_ffff, 0x30_ffff),     // the frame behind it
        (0x000f_ffff_ffff_f087, 0x401f_ffff, 0x0010_0000_001f_efff),
    ] {
        board.lend(&[(0x102, 0, word)]);
        let rows = [
            (4, 0x100, 0, 0x10_1007, Followed),
            (3, 0x101, 1, 0x10_2007, Followed),
            (2, 0x102, 0, word, LargePage),
        ];
        shows(&mut board, virt, (0, phys), &rows)?;
    }
    let mut board = five()?;
    board.play(&[(huge(0x4000_0000, 0x4000_0000, true), 0, 0)])?;
    let rows = [
        (5, 0x100, 0, 0x10_1007, Followed),
        (4, 0x101, 0, 0x10_2007, Followed),
        (3, 0x102, 1, 0x10_3007, Followed),
        (2, 0x103, 0, 0x4000_0087, LargePage),
    ];
    shows(&mut board, 0x4001_2345, (0, 0x4001_2345), &rows)
}

/// Above the last level but one it is followed, or outside; on the last it changes nothing.
fn huge_elsewhere() -> Result<(), String> {
    let mut board = five()?;
    board.lend(&[
        (0x100, 0, 0x10_1087),
        (0x101, 0, 0x10_2087),
        (0x102, 0, 0x10_3087),
        (0x103, 0, 0x10_4007),
        (0x104, 0, 0x10_5087),
    ]);
    let rows = [
        (5, 0x100, 0, 0x10_1087, Followed),
        (4, 0x101, 0, 0x10_2087, Followed),
        (3, 0x102, 0, 0x10_3087, Followed),
        (2, 0x103, 0, 0x10_4007, Followed),
        (1, 0x104, 0, 0x10_5087, Last),
    ];
    shows(&mut board, 0xfff, (0, 0x10_5fff), &rows)?;
    board.lend(&[(0x102, 0, 0x4000_0087)]);
    let outside = [&rows[..2], &[(3, 0x102, 0, 0x4000_0087, Outside)]].concat();
    shows(&mut board, 0xfff, (19, 0), &outside)?;

    let mut board = four()?;
    board.lend(&[(0x100, 0, 0x10_1087), (0x101, 0, 0x10_2087), (0x102, 0, 0x10_3087)]);
    let rows = [
        (4, 0x100, 0, 0x10_1087, Followed),
        (3, 0x101, 0, 0x10_2087, Followed),
        (2, 0x102, 0, 0x10_3087, LargePage),
    ];
    shows(&mut board, 0xfff, (0, 0x10_3fff), &rows)
}

/// On each level above the last: the frame before the board's first, the one behind its last, and far ones.
fn table_off_board() -> Result<(), String> {
    let rows = [
        (4, 0x100, 0, 0x10_1007, Followed),
        (3, 0x101, 0, 0x10_2007, Followed),
        (2, 0x102, 0, 0x10_3007, Followed),
    ];
    let mut board = four()?;
    board.play(&[(map(0, 0x20_0000), 0, 0)])?;
    for (k, &(level, frame, index, word, _)) in rows.iter().enumerate() {
        for outside in [0xf_f007, 0x11_0007, 0x7, 0x000f_ffff_ffff_f007] {
            board.lend(&[(frame, index, outside)]);
            let way = [&rows[..k], &[(level, frame, index, outside, Outside)]].concat();
            shows(&mut board, 0xabc, (19, 0), &way)?;
        }
        board.lend(&[(frame, index, word)]);
    }
    Ok(())
}

/// The last level's entry is last, wherever its page lies.
fn page_off_board() -> Result<(), String> {
    for (phys, address) in [
        (0x0f_f000, 0x0f_fabc),
        (0x11_0000, 0x11_0abc),
        (0, 0xabc),
        (0x000f_ffff_ffff_f000, 0x000f_ffff_ffff_fabc),
    ] {
        let mut board = four()?;
        board.play(&[(map(0x1000, phys), 0, 0)])?;
        let rows = [
            (4, 0x100, 0, 0x10_1007, Followed),
            (3, 0x101, 0, 0x10_2007, Followed),
            (2, 0x102, 0, 0x10_3007, Followed),
            (1, 0x103, 1, phys | 7, Last),
        ];
        shows(&mut board, 0x1abc, (0, address), &rows)?;
    }
    Ok(())
}

/// The one entry is read on each level, and ends the walk on the last. With HUGE it does one level above.
fn itself() -> Result<(), String> {
    let virt = 5 << 48 | 5 << 39 | 5 << 30 | 5 << 21 | 5 << 12 | 0x123;
    let four_rows = [
        (4, 0x100, 5, 0x10_0007, Followed),
        (3, 0x100, 5, 0x10_0007, Followed),
        (2, 0x100, 5, 0x10_0007, Followed),
        (1, 0x100, 5, 0x10_0007, Last),
    ];
    let mut board = four()?;
    board.lend(&[(0x100, 5, 0x10_0007)]);
    shows(&mut board, virt, (0, 0x10_0123), &four_rows)?;
    let mut board = five()?;
    board.lend(&[(0x100, 5, 0x10_0007)]);
    let five_rows = [&[(5, 0x100, 5, 0x10_0007, Followed)][..], &four_rows].concat();
    shows(&mut board, virt, (0, 0x10_0123), &five_rows)?;
    board.lend(&[(0x100, 5, 0x10_0087)]);
    let rows = [
        (5, 0x100, 5, 0x10_0087, Followed),
        (4, 0x100, 5, 0x10_0087, Followed),
        (3, 0x100, 5, 0x10_0087, Followed),
        (2, 0x100, 5, 0x10_0087, LargePage),
    ];
    shows(&mut board, virt, (0, 0x10_5123), &rows)
}

/// Of an address those above the top index, of a word those outside its address, PRESENT and HUGE. The row has
/// the word as it stands.
fn ignored_bits() -> Result<(), String> {
    let mut board = four()?;
    board.lend(&[
        (0x100, 1, 0xfff0_0000_0010_1fff),
        (0x101, 2, 0x7ff0_0000_0010_2801),
        (0x102, 3, 0x8000_0000_0010_3f7f),
        (0x103, 4, 0xfff0_0000_0010_4fff),
    ]);
    let rows = [
        (4, 0x100, 1, 0xfff0_0000_0010_1fff, Followed),
        (3, 0x101, 2, 0x7ff0_0000_0010_2801, Followed),
        (2, 0x102, 3, 0x8000_0000_0010_3f7f, Followed),
        (1, 0x103, 4, 0xfff0_0000_0010_4fff, Last),
    ];
    let virt = 1 << 39 | 2 << 30 | 3 << 21 | 4 << 12 | 0x321;
    for high in [0, 1, 0x00ff, 0xffff] {
        shows(&mut board, high << 48 | virt, (0, 0x10_4321), &rows)?;
    }
    Ok(())
}

/// 10, no rows, and 26 zeros, on a board where the address is mapped. The user question answers 10 there too.
fn broken() -> Result<(), String> {
    let mut board = four()?;
    board.play(&[(map(0x1000, 0x20_0000), 0, 0)])?;
    let (words, sound) = (&board.port.words[..], board.port.frames());
    let refused = |words: &[u64], frames: Frames, root: u64| {
        let (line, working) = port::show_translate(words, frames, root, 0x1000);
        let Frames { start_frame, total, levels, .. } = frames;
        equal(line, gadulnos::raw::translate(words, start_frame, total, levels, root, 0x1000))?;
        for write in [false, true] {
            let may =
                gadulnos::raw::user_may(words, start_frame, total, levels, root, 0x1000, write);
            equal(may, line)?;
        }
        reader::is_broken(line, &working).map_err(|why| format!("{frames:x?}, {root:x}: {why}"))
    };
    for levels in [0, 1, 2, 3, 6, 7, 8, 1 << 32 | 4, 1 << 63 | 5, u64::MAX] {
        refused(words, Frames { levels, ..sound }, 0x100)?;
    }
    for root in [0, 0xff, 0x110, 1 << 52 | 0x100, u64::MAX] {
        refused(words, sound, root)?;
    }
    for total in [0, 17, 8193, 1 << 55, 1 << 63, u64::MAX] {
        refused(words, Frames { total, ..sound }, 0x100)?;
    }
    for start_frame in [(1 << 40) - 15, 1 << 40, u64::MAX - 15, u64::MAX] {
        refused(words, Frames { start_frame, ..sound }, start_frame)?;
    }
    for length in [0, 1, 512, words.len() - 1] {
        refused(&Guarded::copy(&words[..length], Against::Behind), sound, 0x100)?;
    }
    let old_layout = board.port.fields[..24].to_vec();
    board.lend_fields(&old_layout);
    shows(&mut board, 0x1000, (10, 0), &[])
}

fn sentences() -> Result<(), String> {
    let row = Row { level: 4, frame: 0x10, index: 511, word: 0x1_1007, verdict: Followed };
    equal(row.to_string(), "level 4: table frame 0x10, entry 511 = 0x11007: followed".to_string())?;
    let told = Verdict::ALL.map(|verdict| (verdict as u64, verdict.to_string()));
    let names = ["absent", "outside", "followed", "large page", "last"];
    equal(told.to_vec(), (0..).zip(names.map(str::to_string)).collect())?;
    let mut board = four()?;
    equal(
        board.port.show_translate(0x1000).to_string(),
        "level 4: table frame 0x100, entry 0 = 0x0: absent\nrefused: 14".to_string(),
    )?;
    board.play(&[(huge(0, 0x4000_0000, true), 0, 0)])?;
    let shown = "level 4: table frame 0x100, entry 0 = 0x101007: followed\n\
                 level 3: table frame 0x101, entry 0 = 0x102007: followed\n\
                 level 2: table frame 0x102, entry 0 = 0x40000087: large page\n\
                 met: address 0x40001234";
    equal(board.port.show_translate(0x1234).to_string(), shown.to_string())?;
    let mut numbers = [0; SHOWN_NUMBERS];
    numbers[..6].copy_from_slice(&[1, 4, 0x10, 511, 0x1_1007, 2]);
    let answer = Line::met(0);
    equal(Shown::unpack(answer, &numbers), Some(Shown { answer, rows: vec![row] }))?;
    for (place, number) in [(0, 0), (0, 2 << 62 | 1), (0, 6), (0, u64::MAX), (5, 5), (25, 1)] {
        let mut numbers = numbers;
        numbers[place] = number;
        equal_at(place, Shown::unpack(answer, &numbers), None)?;
    }
    Ok(())
}

/// Tables of many kinds of entries, loops among them: the rows read again, and translate's answer. Each verdict
/// comes on each level that has it.
fn random_words(options: &Options) -> Checked {
    let mut random = options.random(46);
    let (mut cases, mut seen) = (0, BTreeSet::new());
    for levels in [LEVELS, MOST_LEVELS] {
        for _ in 0..1 + options.amount / 4 {
            let (words, frames, root) = any_tables(&mut random, levels);
            let Frames { start_frame, total, .. } = frames;
            for _ in 0..64 {
                let virt = random.word();
                let at = (start_frame, total, levels, root, virt);
                let (line, working) = port::show_translate(&words, frames, root, virt);
                let read = Tables { words: &words, frames, root }.read_again(virt, line, &working);
                read.map_err(|why| format!("at {at:x?}: {why}"))?;
                let wanted =
                    gadulnos::raw::translate(&words, start_frame, total, levels, root, virt);
                equal_at(at, line, wanted)?;
                let rows = reader::rows(&working)?;
                seen.extend(rows.into_iter().map(|row| (levels, row[0], row[4])));
                cases += 1;
            }
        }
    }
    // Above the last level but one there are three, on it four, on the last two.
    let all = seen.len() == 2 * 3 + 4 + 2 + 3 * 3 + 4 + 2;
    holds(all || options.amount < 100, "each verdict on each level that has it")?;
    Ok(cases)
}

/// The words of a few lent frames, and a root among them.
pub fn any_tables(random: &mut Random, levels: u64) -> (Guarded<u64>, Frames, u64) {
    let total = 1 + random.below(8);
    let start_frame = random.one_of(&[0, 1, 0x100, 1 << 35, (1 << 40) - total]);
    let extra = random.one_of(&[0, 0, 1, 700]);
    let word = |_| any_word(random, start_frame, total);
    let words: Vec<u64> = (0..total * 512 + extra).map(word).collect();
    let words = Guarded::copy(&words, random.one_of(&[Against::Before, Against::Behind]));
    let frames = Frames { start_frame, total, allocated: 0, levels };
    (words, frames, start_frame + random.below(total))
}

/// Mostly an entry that leads to a lent frame, else one that leads outside or is absent; HUGE at times.
fn any_word(random: &mut Random, start: u64, total: u64) -> u64 {
    let any = random.word();
    let frame = match random.below(10) {
        0 => random.one_of(&[start.wrapping_sub(1), start + total]),
        1 => any >> 12,
        _ => start + random.below(total),
    };
    let flags = random.one_of(&[0, 1, 1, 1, 1, 0x81]);
    (frame << 12 & 0x000F_FFFF_FFFF_F000) | (any & 0xFFF0_0000_0000_0F7E) | flags
}

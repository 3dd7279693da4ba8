//! Entries, flags and indices, beside both files' entry types.

use crate::guard::{Against, GuardedArray};
use crate::options::Options;
use crate::report::{equal_at, Checked, Report};
use calls::{KERNEL_WINDOW, LAST, TEMPORARY, USER_WINDOW};
use gadulnos::raw::Line;
use rinux::oracle::pure;
use rinux::page_handler::PageFlags;
use trial::generate::Random;

const NO_ENTRY: Line = Line::refused(14);

pub fn check(report: &mut Report, options: &Options) {
    report.tell("entries: set and set_huge", set(options));
    report.tell("entries: address and flags of a word", parts(options));
    report.tell("entries: PageFlags, each of the 1024 choices", choices());
    report.tell("entries: PageFlags of any word", flags(options));
    report.tell("entries: set of the second path", second(options));
    report.tell("entries: get_entry", get_entry(options));
    report.tell("entries: page_indices", page_indices(options));
}

/// Every single bit, every run of low bits and its complement, and random words.
fn words(random: &mut Random, count: u64) -> Vec<u64> {
    let low = (0..64).map(|shift| (1 << shift) - 1);
    let mut words: Vec<u64> = low.flat_map(|low: u64| [low, !low, low + 1]).collect();
    words.extend((0..count).map(|i| random.word() >> (i % 32)));
    words
}

fn set(options: &Options) -> Checked {
    let words = words(&mut options.random(10), 20 * options.amount);
    for &phys in &words {
        for (writable, user) in [(false, false), (true, false), (false, true), (true, true)] {
            let at = (phys, writable, user);
            let (set, huge) = (gadulnos::raw::entry_set, gadulnos::raw::entry_set_huge);
            equal_at(at, set(phys, writable, user), pure::entry_word(phys, writable, user))?;
            equal_at(at, huge(phys, writable, user), pure::huge_entry_word(phys, writable, user))?;
        }
    }
    Ok(8 * words.len() as u64)
}

fn parts(options: &Options) -> Checked {
    let words = words(&mut options.random(11), 40 * options.amount);
    for &word in &words {
        let bits = [
            gadulnos::raw::entry_present(word),
            gadulnos::raw::entry_writable(word),
            gadulnos::raw::entry_user(word),
            gadulnos::raw::entry_huge(word),
        ];
        equal_at(word, (bits, gadulnos::raw::entry_addr(word)), pure::entry_parts(word))?;
        let second = (
            gadulnos::raw::handler_present(word),
            gadulnos::raw::handler_addr(word),
            gadulnos::raw::handler_flags(word),
        );
        equal_at(word, second, pure::second_entry_parts(word))?;
    }
    Ok(words.len() as u64)
}

/// The ten flags of a number's low bits, as the original's struct.
fn choice(number: u32) -> PageFlags {
    let flag = |k: u32| number >> k & 1 == 1;
    PageFlags {
        present: flag(0),
        writable: flag(1),
        user: flag(2),
        write_through: flag(3),
        cache_disabled: flag(4),
        accessed: flag(5),
        dirty: flag(6),
        huge: flag(7),
        global: flag(8),
        no_execute: flag(9),
    }
}

/// The word of each choice, and that flags are taken from it and joined again.
fn choices() -> Checked {
    for number in 0..1024 {
        let flags = choice(number);
        let word = flags.to_bits();
        let ours = gadulnos::raw::flags_to_bits(
            flags.present,
            flags.writable,
            flags.user,
            flags.write_through,
            flags.cache_disabled,
            flags.accessed,
            flags.dirty,
            flags.huge,
            flags.global,
            flags.no_execute,
        );
        equal_at(number, ours, word)?;
        equal_at(number, gadulnos::raw::flags(word), word)?;
    }
    Ok(1024)
}

fn flags(options: &Options) -> Checked {
    let words = words(&mut options.random(12), 40 * options.amount);
    for &word in &words {
        equal_at(word, gadulnos::raw::flags(word), pure::page_flags(word))?;
    }
    Ok(words.len() as u64)
}

/// Each of the 1024 choices at the boundary addresses; at these and at random ones some choices, all bits, and any word as flags.
fn second(options: &Options) -> Checked {
    let mut random = options.random(13);
    let mut pairs: Vec<(u64, u64)> = Vec::new();
    for phys in words(&mut random, 0) {
        pairs.extend((0..1024).map(|number| (phys, choice(number).to_bits())));
    }
    for phys in words(&mut random, 10 * options.amount) {
        let flags = [0, 1, 7, 0x1FF, 1 << 63, u64::MAX, random.word()];
        pairs.extend(flags.map(|flags| (phys, flags)));
    }
    for &(phys, flags) in &pairs {
        let ours = gadulnos::raw::handler_entry(phys, flags);
        equal_at((phys, flags), ours, pure::second_entry_word(phys, flags))?;
    }
    Ok(pairs.len() as u64)
}

/// A table of any words between guards, at each index and at those that have no entry.
fn get_entry(options: &Options) -> Checked {
    let mut random = options.random(14);
    let mut cases = 0;
    for _ in 0..1 + options.amount / 20 {
        let lent: [u64; 512] = std::array::from_fn(|_| random.word());
        let lent = GuardedArray::copy(&lent, Against::Behind);
        let table: &[u64; 512] = &lent;
        let far = [512, 513, 1023, 1 << 32, 1 << 60, 1 << 63, usize::MAX - 511, usize::MAX];
        let any = [random.word() as usize, random.below(1024) as usize];
        for index in (0..512).chain(far).chain(any) {
            let wanted = table.get(index).map_or(NO_ENTRY, |&word| Line::met(word));
            equal_at(index, gadulnos::raw::get_entry(table, index), wanted)?;
            equal_at(index, pure::get_entry(table, index), [table.get(index).copied(); 2])?;
            cases += 1;
        }
    }
    Ok(cases)
}

fn page_indices(options: &Options) -> Checked {
    let limits = [0, USER_WINDOW.0, USER_WINDOW.1, KERNEL_WINDOW.0, KERNEL_WINDOW.1, TEMPORARY];
    let around = limits.into_iter().flat_map(|addr| [addr, addr.wrapping_sub(1), addr + 1]);
    let mut addresses: Vec<u64> = around.chain([1 << 47, LAST, u64::MAX]).collect();
    addresses.extend(words(&mut options.random(15), 40 * options.amount));
    for &addr in &addresses {
        let mut out = [usize::MAX; 4];
        gadulnos::raw::page_indices(addr, &mut out);
        equal_at(addr, out, pure::page_indices(addr))?;
    }
    Ok(addresses.len() as u64)
}

//! Rounding, beside the original's formulas on numbers that wrap.

use crate::options::Options;
use crate::report::{equal_at, Checked, Report};
use calls::LAST;
use gadulnos::raw::Line;
use rinux::allocator::access;
use rinux::oracle::pure;
use rinux::paging::{PhysAddr, VirtAddr};
use trial::generate::Random;

const TOO_LARGE: Line = Line::refused(3);

pub fn check(report: &mut Report, options: &Options) {
    report.tell("rounding: page_align_up", pages(options));
    report.tell("rounding: align_up and align_down at powers of two", powers(options));
    report.tell("rounding: align_up and align_down elsewhere", others(options));
    report.tell("rounding: an alignment of 0 counts as 1", zero(options));
}

/// Numbers at and around which something changes.
fn limits() -> Vec<u64> {
    let around = [0, 4096, 8192, 1 << 32, 1 << 47, 1 << 52, 1 << 63, LAST, u64::MAX - 1];
    around
        .iter()
        .flat_map(|&n| (0..7).map(move |step| n.wrapping_add(step).wrapping_sub(3)))
        .collect()
}

/// The limits, and random numbers of every length.
fn numbers(random: &mut Random, count: u64) -> Vec<u64> {
    let mut numbers = limits();
    numbers.extend((0..count).map(|i| random.word() >> (i % 64)));
    numbers
}

fn pages(options: &Options) -> Checked {
    let mut random = options.random(1);
    let sizes = numbers(&mut random, 20 * options.amount);
    for &size in &sizes {
        let wanted = match size > LAST {
            true => TOO_LARGE,
            false => Line::met(pure::align_up(size)?),
        };
        equal_at(size, gadulnos::raw::page_align_up(size), wanted)?;
        equal_at(size, gadulnos::raw::align_up(size, 4096), wanted)?;
    }
    Ok(sizes.len() as u64)
}

fn powers(options: &Options) -> Checked {
    let mut random = options.random(2);
    let mut cases = 0;
    for shift in 0..64 {
        let align = 1 << shift;
        for addr in addresses(&mut random, align, options.amount) {
            both(addr, align)?;
            let (wide, step) = (u128::from(addr), u128::from(align));
            let multiple = (wide + step - 1) / step * step;
            let wanted = u64::try_from(multiple).map_or(TOO_LARGE, Line::met);
            equal_at((addr, align), gadulnos::raw::align_up(addr, align), wanted)?;
            cases += 1;
        }
    }
    Ok(cases)
}

fn others(options: &Options) -> Checked {
    let mut random = options.random(3);
    let mut aligns = vec![3, 5, 6, 7, 12, 100, 4095, 4097, 12288, (1 << 63) - 1, (1 << 63) + 1];
    aligns.extend([LAST, u64::MAX - 1, u64::MAX]);
    aligns.extend((0..options.amount).map(|i| (random.word() >> (i % 64)).max(1)));
    let mut cases = 0;
    for align in aligns {
        for addr in addresses(&mut random, align, 40) {
            both(addr, align)?;
            cases += 1;
        }
    }
    Ok(cases)
}

/// Numbers, with those around the last that can be rounded up.
fn addresses(random: &mut Random, align: u64, count: u64) -> Vec<u64> {
    let last = u64::MAX - (align - 1);
    let mut addresses = numbers(random, count);
    addresses.extend((0..7).map(|step| last.wrapping_add(step).wrapping_sub(3)));
    addresses
}

/// The four functions of the original beside the two here.
fn both(addr: u64, align: u64) -> Result<(), String> {
    let at = (addr, align);
    let down = VirtAddr::new(addr).align_down(align).as_u64();
    equal_at(at, PhysAddr::new(addr).align_down(align).as_u64(), down)?;
    equal_at(at, gadulnos::raw::align_down(addr, align), down)?;
    if addr.checked_add(align - 1).is_none() {
        return equal_at(at, gadulnos::raw::align_up(addr, align), TOO_LARGE);
    }
    let up = access::align_up(addr as usize, align as usize) as u64;
    equal_at(at, VirtAddr::new(addr).align_up(align).as_u64(), up)?;
    equal_at(at, PhysAddr::new(addr).align_up(align).as_u64(), up)?;
    equal_at(at, gadulnos::raw::align_up(addr, align), Line::met(up))
}

fn zero(options: &Options) -> Checked {
    let addresses = numbers(&mut options.random(4), 1000);
    for &addr in &addresses {
        equal_at(addr, gadulnos::raw::align_up(addr, 0), Line::met(addr))?;
        equal_at(addr, gadulnos::raw::align_down(addr, 0), addr)?;
    }
    Ok(addresses.len() as u64)
}

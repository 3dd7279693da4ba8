//! Addresses, frame numbers and huge pages' sizes, beside the original's types.

use crate::options::Options;
use crate::report::{equal_at, Checked, Report};
use rinux::frame::Frame;
use rinux::paging::{HugePageSize, MemoryZone, PhysAddr, VirtAddr};
use trial::generate::Random;

pub fn check(report: &mut Report, options: &Options) {
    report.tell("addresses: is_aligned", is_aligned(options));
    report.tell("addresses: page_offset and page_number", pages(options));
    report.tell("addresses: zone", zones(options));
    report.tell("addresses: frames", frames(options));
    report.tell("addresses: sizes of huge pages", huge_sizes());
}

/// Numbers around every power of two and the zones' ends, and random ones of every length.
fn numbers(random: &mut Random, count: u64) -> Vec<u64> {
    let powers = (0..64).map(|shift| 1u64 << shift);
    let limits = powers.chain([0, 16 << 20, 896 << 20, u64::MAX]);
    let mut numbers: Vec<u64> =
        limits.flat_map(|n| (0..5).map(move |i| n.wrapping_add(i).wrapping_sub(2))).collect();
    numbers.extend((0..count).map(|i| random.word() >> (i % 64)));
    numbers
}

fn is_aligned(options: &Options) -> Checked {
    let mut random = options.random(30);
    let numbers = numbers(&mut random, options.amount);
    let mut cases = 0;
    for &align in &numbers {
        let multiple = random.word().wrapping_mul(align);
        for addr in
            [0, 1, align, align.wrapping_add(1), align.wrapping_mul(3), multiple, random.word()]
        {
            let wanted = VirtAddr::new(addr).is_aligned(align);
            equal_at((addr, align), gadulnos::raw::is_aligned(addr, align), wanted)?;
            equal_at((addr, align), PhysAddr::new(addr).is_aligned(align), wanted)?;
            cases += 1;
        }
    }
    Ok(cases)
}

fn pages(options: &Options) -> Checked {
    let numbers = numbers(&mut options.random(31), 20 * options.amount);
    for &virt in &numbers {
        let original = VirtAddr::new(virt);
        equal_at(virt, gadulnos::raw::page_offset(virt), original.page_offset())?;
        equal_at(virt, gadulnos::raw::page_number(virt), original.page_number())?;
    }
    Ok(2 * numbers.len() as u64)
}

fn zones(options: &Options) -> Checked {
    let numbers = numbers(&mut options.random(32), 20 * options.amount);
    for &phys in &numbers {
        let wanted = match PhysAddr::new(phys).zone() {
            MemoryZone::Dma => 0,
            MemoryZone::Normal => 1,
            MemoryZone::High => 2,
        };
        equal_at(phys, gadulnos::raw::zone(phys), wanted)?;
    }
    Ok(numbers.len() as u64)
}

/// The wrapping build is linked, so that a frame's address is cut to 64 bits there too.
fn frames(options: &Options) -> Checked {
    let numbers = numbers(&mut options.random(33), 20 * options.amount);
    for &number in &numbers {
        let frame = Frame::containing_address(number);
        equal_at(number, gadulnos::raw::containing_address(number), frame.number())?;
        equal_at(number, gadulnos::raw::start_address(frame.number()), frame.start_address())?;
        let any = Frame::containing_address(number << 12);
        equal_at(number, gadulnos::raw::start_address(any.number()), any.start_address())?;
        equal_at(number, gadulnos::raw::start_address(number), number.wrapping_mul(4096))?;
    }
    Ok(4 * numbers.len() as u64)
}

fn huge_sizes() -> Checked {
    for (gigabyte, original) in [(false, HugePageSize::Size2MB), (true, HugePageSize::Size1GB)] {
        equal_at(gigabyte, gadulnos::raw::huge_size(gigabyte), original.size())?;
        equal_at(gigabyte, gadulnos::raw::huge_alignment(gigabyte), original.alignment())?;
    }
    Ok(4)
}

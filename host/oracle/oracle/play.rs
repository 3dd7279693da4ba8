//! Plays one call on the original's functions and says which of document 01's numbers the
//! answer may stand for.

use crate::page_fault::PageFaultError;
use crate::paging::{HugePageSize, PageMapper, PhysAddr, VirtAddr};
use crate::{frame, mmap, page_fault, page_handler, vmalloc};
use calls::{user, writable, Call};
use std::any::Any;
use std::cell::Cell;
use std::panic::{self, AssertUnwindSafe, UnwindSafe};
use std::sync::Once;
use trial::answer::{Numbers, Outcome};

thread_local! {
    /// Whether a panic now is an answer, not an accident.
    static PLAYING: Cell<bool> = const { Cell::new(false) };
}

pub fn play(call: &Call) -> Outcome {
    catch(AssertUnwindSafe(|| run(call))).unwrap_or_else(Outcome::panicked)
}

/// Runs a piece of the original. A panic is caught, silently, and its message handed back.
pub fn catch<T>(piece: impl FnOnce() -> T + UnwindSafe) -> Result<T, String> {
    static HOOK: Once = Once::new();
    HOOK.call_once(|| {
        let loud = panic::take_hook();
        panic::set_hook(Box::new(move |info| {
            if !PLAYING.with(Cell::get) {
                loud(info);
            }
        }));
    });
    PLAYING.with(|playing| playing.set(true));
    let outcome = panic::catch_unwind(piece);
    PLAYING.with(|playing| playing.set(false));
    outcome.map_err(|payload| message(&*payload))
}

fn message(payload: &(dyn Any + Send)) -> String {
    match (payload.downcast_ref::<&str>(), payload.downcast_ref::<String>()) {
        (Some(text), _) => text.to_string(),
        (_, Some(text)) => text.clone(),
        _ => "panic".to_string(),
    }
}

fn run(call: &Call) -> Outcome {
    match *call {
        Call::Vmalloc { size } => run_vmalloc(size),
        Call::Vfree { addr } => run_vfree(addr),
        Call::Mmap { given, addr, size, prot, flags } => {
            let addr = given.then_some(addr as usize);
            let answer = mmap::mmap(addr, size as usize, prot, flags, -1, 0);
            of_result(answer.map(|addr| addr as u64))
        }
        Call::Munmap { addr, size } => of_unit(mmap::munmap(addr as usize, size as usize)),
        Call::Mprotect { addr, size, prot } => {
            of_unit(mmap::mprotect(addr as usize, size as usize, prot))
        }
        Call::Fault { addr, code } => match page_fault::handle_page_fault(addr, code) {
            Ok(()) => Outcome::met(0),
            Err(error) => of_fault(error),
        },
        Call::SecondFault { addr, code } => of_unit(page_handler::handle_page_fault(addr, code)),
        Call::Translate { .. }
        | Call::MapPage { .. }
        | Call::UnmapPage { .. }
        | Call::MapHugePage { .. } => run_mapper(call),
        _ => run_small(call),
    }
}

/// The calls on the mapper alone.
fn run_mapper(call: &Call) -> Outcome {
    // SAFETY: making a mapper only reads the lent root.
    let mut mapper = unsafe { PageMapper::new() };
    match *call {
        Call::Translate { addr } => match mapper.translate(VirtAddr::new(addr)) {
            Some(phys) => Outcome::met(phys.as_u64()),
            None => Outcome::refused("None", Numbers::one(14)),
        },
        Call::MapPage { virt, phys, flags } => {
            let (virt, phys) = (VirtAddr::new(virt), PhysAddr::new(phys));
            of_unit(mapper.map_page(virt, phys, writable(flags), user(flags)))
        }
        Call::UnmapPage { virt } => {
            let frame = mapper.unmap_page(VirtAddr::new(virt));
            of_result(frame.map(|frame| frame.number()))
        }
        Call::MapHugePage { virt, phys, gigabyte, flags } => {
            let (virt, phys) = (VirtAddr::new(virt), PhysAddr::new(phys));
            let size = if gigabyte { HugePageSize::Size1GB } else { HugePageSize::Size2MB };
            of_unit(mapper.map_huge_page(virt, phys, size, writable(flags), user(flags)))
        }
        _ => unreachable!("not a call on the mapper"),
    }
}

/// The calls on a single record: frames, marked pages, and the window question.
fn run_small(call: &Call) -> Outcome {
    match *call {
        Call::MarkCow { addr } => page_fault::mark_cow(addr),
        Call::UnmarkCow { addr } => page_fault::unmark_cow(addr),
        Call::IsCow { addr } => return Outcome::met(page_fault::is_cow(addr).into()),
        Call::AllocateFrame => {
            return match frame::allocate_frame() {
                Some(frame) => Outcome::met(frame.number()),
                None => Outcome::refused("None", Numbers::one(11)),
            }
        }
        Call::DeallocateFrame { frame } => frame::deallocate_frame(frame::access::frame(frame)),
        Call::MarkAllocated { frame } => frame::access::mark_allocated(frame),
        Call::IsAllocated { frame } => {
            return Outcome::met(frame::access::is_allocated(frame).into())
        }
        Call::IsVmallocAddr { addr } => {
            return Outcome::met(vmalloc::is_vmalloc_addr(addr as usize).into())
        }
        Call::Counts => return Outcome::met(frame::get_stats().1),
        _ => unreachable!("not a call on a single record"),
    }
    Outcome::met(0)
}

/// A None is 1, 15, 11 or 13. The size and the list before the call tell the first two from
/// the others, and where a frame is still free after the call, it was not 11.
fn run_vmalloc(size: u64) -> Outcome {
    let mut fits = false;
    let count = vmalloc::access::count();
    vmalloc::access::each_slot(|i, _, slot_size, used| {
        fits |= i < count && !used && slot_size >= size;
    });
    if let Some(addr) = vmalloc::vmalloc(size as usize) {
        return Outcome::met(addr as u64);
    }
    let (total, allocated, _) = frame::get_stats();
    let numbers = match (size, fits) {
        (0, _) => Numbers::one(1),
        (_, false) => Numbers::one(15),
        _ if allocated < total => Numbers::one(13),
        _ => Numbers::one(11).or(13),
    };
    Outcome::refused("None", numbers)
}

/// The Rust says nothing of an address it does not know, where document 01 adds 16.
fn run_vfree(addr: u64) -> Outcome {
    let mut known = false;
    let count = vmalloc::access::count();
    vmalloc::access::each_slot(|i, start, _, used| {
        known |= i < count && used && start == addr && addr != 0;
    });
    // SAFETY: the board's pages are not in use by this program.
    unsafe { vmalloc::vfree(addr as *mut u8) };
    match known {
        true => Outcome::met(0),
        false => Outcome::refused("nothing said", Numbers::one(16)),
    }
}

fn of_result(answer: Result<u64, &'static str>) -> Outcome {
    match answer {
        Ok(value) => Outcome::met(value),
        Err(text) => Outcome::refused(text, number_of(text)),
    }
}

fn of_unit(answer: Result<(), &'static str>) -> Outcome {
    of_result(answer.map(|()| 0))
}

fn number_of(text: &str) -> Numbers {
    Numbers::one(match text {
        "Invalid size: 0" => 1,
        "Address not page-aligned" => 2,
        "Addresses not aligned for huge page" => 4,
        "Reserved bit violation" => 5,
        "Instruction fetch from non-executable page" => 7,
        "Protection violation" => 8,
        // The Rust's own: since document 02 no call of the port answers it.
        "mprotect not yet implemented" => 9,
        "Out of memory" => 11,
        "Page already mapped" => 12,
        "Failed to map page" => 13,
        "Page not mapped" => 14,
        "Invalid page table index" | "Invalid table index" | "Invalid PT index" => 14,
        "No free region available" => 15,
        "Region not found" => 16,
        "Write to read-only page" => 17,
        _ => panic!("document 01 has no number for `{text}`"),
    })
}

fn of_fault(error: PageFaultError) -> Outcome {
    let (name, number) = match error {
        PageFaultError::ReservedBit => ("ReservedBit", 5),
        PageFaultError::InvalidAddress => ("InvalidAddress", 6),
        PageFaultError::InstructionFetch => ("InstructionFetch", 7),
        PageFaultError::ProtectionViolation => ("ProtectionViolation", 8),
        PageFaultError::OutOfMemory => ("OutOfMemory", 11),
        PageFaultError::WriteToReadOnly => ("WriteToReadOnly", 17),
        PageFaultError::PageTableError => ("PageTableError", 18),
    };
    Outcome::refused(name, Numbers::one(number))
}

//! Why calls were refused: docs/NUMBERS.md for the call at hand.

use super::page;
use calls::{Call, LAST, USER_WINDOW};
use gadulnos::raw::{huge_alignment, is_aligned};
use gadulnos::{FaultCode, Refusal};

/// Why a call was refused so. What its arguments do not tell is left open; a number that the call never answers has the
/// words that it has for every call.
pub fn reason(call: &Call, refusal: Refusal) -> String {
    by_arguments(call, refusal)
        .or_else(|| by_fault(call, refusal))
        .or_else(|| by_regions(call, refusal))
        .or_else(|| by_tables(call, refusal))
        .unwrap_or_else(|| refusal.words().to_string())
}

/// The refusals that the arguments alone decide, but for faults, and those of a broken record.
fn by_arguments(call: &Call, refusal: Refusal) -> Option<String> {
    Some(match (refusal, *call) {
        (Refusal::BrokenRecord, _) => format!("{} no board's", parts(call)),
        (Refusal::TooLarge, Call::Mmap { addr, size, .. }) if size <= LAST => {
            format!("the pages of {} from {addr:#x} on end above {LAST:#x}", bytes(size))
        }
        (
            Refusal::TooLarge,
            Call::Vmalloc { size }
            | Call::Mmap { size, .. }
            | Call::Munmap { size, .. }
            | Call::Mprotect { size, .. },
        ) => format!("size {size:#x} is above {LAST:#x}, the largest that rounds up to pages"),
        (Refusal::Unaligned, Call::Mmap { addr, .. }) => {
            format!("a fixed address is a multiple of 4096, and {addr:#x} is none")
        }
        (Refusal::Unaligned, Call::Munmap { addr, .. } | Call::Mprotect { addr, .. }) => {
            format!("the address {addr:#x} is no multiple of 4096")
        }
        (Refusal::HugeUnaligned, Call::MapHugePage { virt, phys, gigabyte, .. }) => {
            let size = huge_alignment(gigabyte);
            let (what, addr) =
                if is_aligned(virt, size) { ("physical", phys) } else { ("virtual", virt) };
            format!("the {what} address {addr:#x} is no multiple of the page's size {size:#x}")
        }
        _ => return None,
    })
}

/// The parts that a call is lent.
fn parts(call: &Call) -> &'static str {
    match call {
        Call::Vmalloc { .. } | Call::Vfree { .. } => "the memory or the vmalloc list is",
        Call::Mmap { .. } | Call::Munmap { .. } => "the memory or the mmap list is",
        Call::Mprotect { .. } => "the frames, the root or the mmap list are",
        Call::Fault { .. } => "the memory or the list of copy-on-write pages is",
        Call::SecondFault { .. } | Call::MapPage { .. } | Call::MapHugePage { .. } => {
            "the memory is"
        }
        Call::Translate { .. } | Call::UnmapPage { .. } | Call::UserMay { .. } => {
            "the frames or the root are"
        }
        Call::MarkCow { .. } | Call::UnmarkCow { .. } | Call::IsCow { .. } => {
            "the list of copy-on-write pages is"
        }
        _ => "the frame record is",
    }
}

/// The refusals of both fault paths.
fn by_fault(call: &Call, refusal: Refusal) -> Option<String> {
    let (addr, code, is_first) = match *call {
        Call::Fault { addr, code } => (addr, FaultCode::from_bits(code), true),
        Call::SecondFault { addr, code } => (addr, FaultCode::from_bits(code), false),
        _ => return None,
    };
    by_code(addr, code, is_first, refusal).or_else(|| by_frames(addr, code, is_first, refusal))
}

/// The second range in which the first path maps pages, the kernel's heap.
const HEAP: &str = "from 0xffffff0000000000 up to 0xffffff8000000000";

/// Those that address and code decide, with the marks.
fn by_code(addr: u64, code: FaultCode, is_first: bool, refusal: Refusal) -> Option<String> {
    let page = page(addr);
    Some(match refusal {
        Refusal::ReservedBit => {
            format!("the error code {:#x} has the reserved bit, 8", code.bits())
        }
        Refusal::InvalidAddress if is_first => format!(
            "page {page} is not present by the code, and lies neither below 0x800000000000 nor {HEAP}"
        ),
        Refusal::InstructionFetch if code.has(FaultCode::PRESENT) => {
            format!("an instruction fetch of page {page}, present by the code")
        }
        Refusal::InstructionFetch => {
            format!("an instruction fetch of page {page}: {HEAP} nothing is executed")
        }
        Refusal::ProtectionViolation => {
            format!("page {page} is present by the code, and the access is neither write nor fetch")
        }
        Refusal::WriteToReadOnly if is_first => {
            format!("a write to page {page}, present by the code and not marked copy-on-write")
        }
        Refusal::WriteToReadOnly => format!("a write to page {page}, present by the code"),
        _ => return None,
    })
}

/// Those by the state of frames and tables: a page that is present is copied, another is mapped.
fn by_frames(addr: u64, code: FaultCode, is_first: bool, refusal: Refusal) -> Option<String> {
    let page = page(addr);
    let is_copy = is_first && code.has(FaultCode::PRESENT);
    Some(match refusal {
        Refusal::NoFreeFrame if is_copy => format!("no frame is free for the copy of page {page}"),
        Refusal::NoFreeFrame if is_first => format!("no frame is free for page {page}"),
        Refusal::NoFreeFrame => format!("no frame is free for page {page} or a table"),
        Refusal::PageTableError if is_copy => format!(
            "page {page} could not be copied: it lies in no frame of the board, no frame is free \
             for a table, or a table lies off the board"
        ),
        Refusal::PageTableError if is_first => {
            format!("the frame of page {page} could not be mapped: {FAILED}")
        }
        Refusal::Outside if !is_first => off_board(addr),
        _ => return None,
    })
}

/// Why a frame could not be mapped: one of these, which the answer does not tell.
const FAILED: &str =
    "no frame is free for a table, the page is mapped already, or a table lies off the board";

/// The refusals by the state of calls on regions and of the marks.
fn by_regions(call: &Call, refusal: Refusal) -> Option<String> {
    Some(match (refusal, *call) {
        (Refusal::NoRegion, Call::Vmalloc { size }) => {
            format!("no free region of the window is large enough for {}", bytes(size))
        }
        (Refusal::NoRegion, Call::Mmap { size, .. }) => {
            format!("the search found no {} free below {:#x}", bytes(size), USER_WINDOW.1)
        }
        (Refusal::NoFreeFrame, Call::Vmalloc { .. } | Call::Mmap { .. }) => {
            "no frame is free for one of its pages".to_string()
        }
        (Refusal::MapPageFailed, Call::Vmalloc { .. } | Call::Mmap { .. }) => {
            format!("the frame of one of its pages could not be mapped: {FAILED}")
        }
        (Refusal::RegionNotFound, Call::Vfree { addr: 0 }) => {
            "the address 0 is no region's".to_string()
        }
        (Refusal::RegionNotFound, Call::Vfree { addr }) => {
            format!("no used region starts at {addr:#x}")
        }
        (
            Refusal::RegionNotFound,
            Call::Munmap { addr, size } | Call::Mprotect { addr, size, .. },
        ) => {
            let round = if size == 1 { "rounds" } else { "round" };
            let bytes = bytes(size);
            format!("no region starts at {addr:#x} and has the size that {bytes} {round} up to")
        }
        (Refusal::ListFull, Call::Mmap { .. }) => {
            "the list has 256 regions, and none starts where this one would".to_string()
        }
        (Refusal::ListFull, Call::MarkCow { addr }) => {
            format!("256 pages are marked, and page {} is none of them", page(addr))
        }
        _ => return None,
    })
}

/// The refusals of walks, mappings and frames.
fn by_tables(call: &Call, refusal: Refusal) -> Option<String> {
    Some(match (refusal, *call) {
        (Refusal::NotMapped, Call::Translate { addr } | Call::UnmapPage { virt: addr }) => {
            format!("an entry on the way to {addr:#x} is absent")
        }
        (
            Refusal::Outside,
            Call::Translate { addr }
            | Call::UnmapPage { virt: addr }
            | Call::MapPage { virt: addr, .. }
            | Call::MapHugePage { virt: addr, .. },
        ) => off_board(addr),
        (Refusal::NoFreeFrame, Call::MapPage { .. } | Call::MapHugePage { .. }) => {
            "no frame is free for a table".to_string()
        }
        (Refusal::NoFreeFrame, Call::AllocateFrame) => "all frames are marked".to_string(),
        (Refusal::AlreadyMapped, Call::MapPage { virt, .. }) => {
            format!("page {} is mapped already", page(virt))
        }
        (Refusal::AlreadyMapped, Call::MapHugePage { virt, .. }) => {
            format!("the entry for {virt:#x} is present already")
        }
        _ => return None,
    })
}

/// A size as a paper's text has it: in decimal while that is easily read.
fn bytes(size: u64) -> String {
    match size {
        1 => "1 byte".to_string(),
        size if size < 1 << 16 => format!("{size} bytes"),
        size => format!("{size:#x} bytes"),
    }
}

/// That a walk leaves the board.
fn off_board(addr: u64) -> String {
    format!("an entry on the way to {addr:#x} names a table off the board")
}

//! What calls told, in words.

mod refused;

use crate::words::counted;
use calls::Call;
use gadulnos::raw::{Finding, Line, Told};
use gadulnos::{FaultCode, Prot, Refusal, Tally, VirtAddr};

/// What a call told, in one line: what came of it, or the refusal's number and name and why this call was refused.
pub fn told(call: &Call, told: &Told) -> String {
    let Line { number, value } = told.line;
    match Refusal::of(number) {
        None if number == 0 => met(call, value, &told.tally.into()),
        None => format!("refused, {number}: no call answers this number"),
        Some(refusal) => {
            let reason = refused::reason(call, refusal);
            format!("refused, {number} {}: {reason}", refusal.name())
        }
    }
}

/// What a met call's value means, or what it found.
fn met(call: &Call, value: u64, found: &Tally) -> String {
    match *call {
        Call::Vmalloc { .. } => format!("region at {value:#x}"),
        Call::Mmap { given: true, addr, .. } if addr != value => {
            format!("region at {value:#x}, not at {addr:#x}")
        }
        Call::Mmap { .. } => format!("region at {value:#x}"),
        Call::Vfree { .. } | Call::Munmap { .. } => given_back(found),
        Call::Fault { addr, code } => served(addr, code, found),
        Call::SecondFault { addr, .. } => format!("page {} mapped on demand", page(addr)),
        Call::Translate { .. } => format!("physical address {value:#x}"),
        Call::MapPage { virt, .. } => format!("page {} mapped", page(virt)),
        Call::MapHugePage { gigabyte, .. } => {
            format!("huge page of {} mapped", if gigabyte { "1 GiB" } else { "2 MiB" })
        }
        Call::UnmapPage { .. } => format!("was mapped to frame {value:#x}"),
        Call::MarkCow { addr } => format!("page {} marked copy-on-write", page(addr)),
        Call::UnmarkCow { addr } => format!("page {} is not marked", page(addr)),
        Call::AllocateFrame => format!("frame {value:#x}"),
        Call::DeallocateFrame { .. } => freed(value),
        Call::MarkAllocated { frame } => format!("frame {frame:#x} marked, if it is on this board"),
        Call::Mprotect { prot, .. } => format!("protection is {} now", Prot::from_bits(prot)),
        Call::Counts => format!("{} marked", counted(value, "frame")),
        Call::IsCow { .. }
        | Call::IsAllocated { .. }
        | Call::IsVmallocAddr { .. }
        | Call::UserMay { .. } => question(call, value == 1),
    }
}

/// The answer to a question with yes or no.
fn question(call: &Call, yes: bool) -> String {
    let not = if yes { "" } else { "not " };
    match *call {
        Call::IsCow { addr } => format!("page {} is {not}marked copy-on-write", page(addr)),
        Call::IsAllocated { .. } if yes => "it is marked, or not on this board".to_string(),
        Call::IsAllocated { .. } => "it is free".to_string(),
        Call::IsVmallocAddr { .. } if yes => "it lies in vmalloc's window".to_string(),
        Call::IsVmallocAddr { .. } => "it lies outside vmalloc's window".to_string(),
        Call::UserMay { write: true, .. } => format!("user code may {not}write it"),
        _ => format!("user code may {not}read it"),
    }
}

/// What became of a fault that was met: a copy where the page is present, else a page on demand.
fn served(addr: u64, code: u64, found: &Tally) -> String {
    match FaultCode::from_bits(code).has(FaultCode::PRESENT) {
        true if found.pages() == 0 => format!("page {} copied, no frame freed", page(addr)),
        true => format!("page {} copied, {}", page(addr), given_back(found)),
        false => format!("page {} mapped on demand", page(addr)),
    }
}

/// What was found of frames, in words: as in `2 frames freed`, all three numbers where not all were freed.
fn given_back(found: &Tally) -> String {
    match found.pages() {
        0 => "no frame freed: no page was mapped".to_string(),
        pages if pages == found.freed => format!("{} freed", counted(pages, "frame")),
        pages => format!("{}: {found}", counted(pages, "frame")),
    }
}

/// What was found of one frame.
fn freed(value: u64) -> String {
    let words = match Finding::of(value) {
        Some(Finding::Freed) => "it is freed",
        Some(Finding::AlreadyFree) => "it was free already",
        Some(Finding::NotHere) => "it is not on this board",
        None => "no answer that is known",
    };
    words.to_string()
}

/// The page that an address lies in.
fn page(addr: u64) -> VirtAddr {
    VirtAddr::new(addr).page()
}

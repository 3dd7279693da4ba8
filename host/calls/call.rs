//! The calls that a tape can hold.

use std::fmt;

/// A call with its arguments, in the order of the tape's kinds 1 to 21.
#[derive(Clone, Copy, Debug, PartialEq, Eq, Hash)]
pub enum Call {
    /// vmalloc: a region of the kernel's.
    Vmalloc { size: u64 },
    /// vfree: releases it.
    Vfree { addr: u64 },
    /// mmap: a region of the user's. `addr` stands on the tape also where it is not given.
    Mmap { given: bool, addr: u64, size: u64, prot: i32, flags: i32 },
    /// munmap: releases a region of the user's.
    Munmap { addr: u64, size: u64 },
    /// A page fault, by the first path.
    Fault { addr: u64, code: u64 },
    /// translate: the physical address.
    Translate { addr: u64 },
    /// A page fault, by the second path.
    SecondFault { addr: u64, code: u64 },
    /// map_page, with its flags byte.
    MapPage { virt: u64, phys: u64, flags: u8 },
    /// unmap_page.
    UnmapPage { virt: u64 },
    /// map_huge_page: 1 GiB if `gigabyte`, else 2 MiB.
    MapHugePage { virt: u64, phys: u64, gigabyte: bool, flags: u8 },
    /// mark_cow: marks a page copy-on-write.
    MarkCow { addr: u64 },
    /// unmark_cow.
    UnmarkCow { addr: u64 },
    /// is_cow.
    IsCow { addr: u64 },
    /// allocate_frame.
    AllocateFrame,
    /// deallocate_frame.
    DeallocateFrame { frame: u64 },
    /// mark_allocated.
    MarkAllocated { frame: u64 },
    /// is_allocated.
    IsAllocated { frame: u64 },
    /// is_vmalloc_addr: the kernel window.
    IsVmallocAddr { addr: u64 },
    /// mprotect: another protection for a region.
    Mprotect { addr: u64, size: u64, prot: i32 },
    /// The three counts; the value is the number of allocated frames.
    Counts,
    /// Whether user code may read an address, or write it if `write`.
    UserMay { addr: u64, write: bool },
}

/// Bit 0 of a map call's flags.
///
/// ```
/// assert!(calls::writable(1) && !calls::writable(2));
/// ```
pub fn writable(flags: u8) -> bool {
    flags & 1 != 0
}

/// Bit 1 of a map call's flags.
///
/// ```
/// assert!(calls::user(2) && !calls::user(1));
/// ```
pub fn user(flags: u8) -> bool {
    flags & 2 != 0
}

/// The name of a kind and its fields, each with its width in bytes.
pub struct Shape {
    /// The name.
    pub name: &'static str,
    /// The fields in their order.
    pub fields: &'static [(&'static str, usize)],
}

const fn shape(name: &'static str, fields: &'static [(&'static str, usize)]) -> Shape {
    Shape { name, fields }
}

const SHAPES: [Shape; 21] = [
    shape("vmalloc", &[("size", 8)]),
    shape("vfree", &[("addr", 8)]),
    shape("mmap", &[("given", 1), ("addr", 8), ("size", 8), ("prot", 4), ("flags", 4)]),
    shape("munmap", &[("addr", 8), ("size", 8)]),
    shape("fault", &[("addr", 8), ("code", 8)]),
    shape("translate", &[("addr", 8)]),
    shape("second_fault", &[("addr", 8), ("code", 8)]),
    shape("map_page", &[("virt", 8), ("phys", 8), ("flags", 1)]),
    shape("unmap_page", &[("virt", 8)]),
    shape("map_huge_page", &[("virt", 8), ("phys", 8), ("gigabyte", 1), ("flags", 1)]),
    shape("mark_cow", &[("addr", 8)]),
    shape("unmark_cow", &[("addr", 8)]),
    shape("is_cow", &[("addr", 8)]),
    shape("allocate_frame", &[]),
    shape("deallocate_frame", &[("frame", 8)]),
    shape("mark_allocated", &[("frame", 8)]),
    shape("is_allocated", &[("frame", 8)]),
    shape("is_vmalloc_addr", &[("addr", 8)]),
    shape("mprotect", &[("addr", 8), ("size", 8), ("prot", 4)]),
    shape("allocated_frames", &[]),
    shape("user_may", &[("addr", 8), ("write", 1)]),
];

impl Shape {
    /// The shape of a kind, if there is such a kind.
    ///
    /// ```
    /// assert_eq!(calls::Shape::of(6).map(|shape| shape.name), Some("translate"));
    /// assert!(calls::Shape::of(22).is_none());
    /// ```
    pub fn of(kind: u8) -> Option<&'static Shape> {
        SHAPES.get(usize::from(kind).checked_sub(1)?)
    }
}

impl Call {
    /// The tape's kind byte.
    ///
    /// ```
    /// assert_eq!(calls::Call::Vmalloc { size: 1 }.kind(), 1);
    /// ```
    pub fn kind(&self) -> u8 {
        match self {
            Call::Vmalloc { .. } => 1,
            Call::Vfree { .. } => 2,
            Call::Mmap { .. } => 3,
            Call::Munmap { .. } => 4,
            Call::Fault { .. } => 5,
            Call::Translate { .. } => 6,
            Call::SecondFault { .. } => 7,
            Call::MapPage { .. } => 8,
            Call::UnmapPage { .. } => 9,
            Call::MapHugePage { .. } => 10,
            Call::MarkCow { .. } => 11,
            Call::UnmarkCow { .. } => 12,
            Call::IsCow { .. } => 13,
            Call::AllocateFrame => 14,
            Call::DeallocateFrame { .. } => 15,
            Call::MarkAllocated { .. } => 16,
            Call::IsAllocated { .. } => 17,
            Call::IsVmallocAddr { .. } => 18,
            Call::Mprotect { .. } => 19,
            Call::Counts => 20,
            Call::UserMay { .. } => 21,
        }
    }

    /// Its shape.
    ///
    /// ```
    /// assert_eq!(calls::Call::Vmalloc { size: 1 }.shape().name, "vmalloc");
    /// ```
    pub fn shape(&self) -> &'static Shape {
        Shape::of(self.kind()).expect("every call has a shape")
    }

    /// The fields in tape order, signed ones by their two's-complement bits.
    ///
    /// ```
    /// let call = calls::Call::Munmap { addr: 0x1000, size: 1 };
    /// assert_eq!(call.fields(), [0x1000, 1]);
    /// ```
    pub fn fields(&self) -> Vec<u64> {
        let signed = |value: i32| u64::from(value as u32);
        match *self {
            Call::Vmalloc { size } => vec![size],
            Call::Mmap { given, addr, size, prot, flags } => {
                vec![u64::from(given), addr, size, signed(prot), signed(flags)]
            }
            Call::Munmap { addr, size } => vec![addr, size],
            Call::Fault { addr, code } | Call::SecondFault { addr, code } => vec![addr, code],
            Call::MapPage { virt, phys, flags } => vec![virt, phys, u64::from(flags)],
            Call::UnmapPage { virt } => vec![virt],
            Call::MapHugePage { virt, phys, gigabyte, flags } => {
                vec![virt, phys, u64::from(gigabyte), u64::from(flags)]
            }
            Call::Vfree { addr } | Call::Translate { addr } | Call::IsVmallocAddr { addr } => {
                vec![addr]
            }
            Call::MarkCow { addr } | Call::UnmarkCow { addr } | Call::IsCow { addr } => vec![addr],
            Call::DeallocateFrame { frame }
            | Call::MarkAllocated { frame }
            | Call::IsAllocated { frame } => vec![frame],
            Call::Mprotect { addr, size, prot } => vec![addr, size, signed(prot)],
            Call::UserMay { addr, write } => vec![addr, u64::from(write)],
            Call::AllocateFrame | Call::Counts => vec![],
        }
    }

    /// The call of a kind with these fields, if it has such: a truth value is 0 or 1.
    ///
    /// ```
    /// use calls::Call;
    ///
    /// assert_eq!(Call::from_fields(1, &[5]), Some(Call::Vmalloc { size: 5 }));
    /// assert_eq!(Call::from_fields(1, &[]), None);
    /// ```
    pub fn from_fields(kind: u8, fields: &[u64]) -> Option<Call> {
        let truth = |value: u64| (value < 2).then_some(value == 1);
        Some(match (kind, fields) {
            (1, &[size]) => Call::Vmalloc { size },
            (2, &[addr]) => Call::Vfree { addr },
            (3, &[given, addr, size, prot, flags]) => Call::Mmap {
                given: truth(given)?,
                addr,
                size,
                prot: prot as i32,
                flags: flags as i32,
            },
            (4, &[addr, size]) => Call::Munmap { addr, size },
            (5, &[addr, code]) => Call::Fault { addr, code },
            (6, &[addr]) => Call::Translate { addr },
            (7, &[addr, code]) => Call::SecondFault { addr, code },
            (8, &[virt, phys, flags]) => Call::MapPage { virt, phys, flags: flags as u8 },
            (9, &[virt]) => Call::UnmapPage { virt },
            (10, &[virt, phys, gigabyte, flags]) => {
                Call::MapHugePage { virt, phys, gigabyte: truth(gigabyte)?, flags: flags as u8 }
            }
            (11, &[addr]) => Call::MarkCow { addr },
            (12, &[addr]) => Call::UnmarkCow { addr },
            (13, &[addr]) => Call::IsCow { addr },
            (14, &[]) => Call::AllocateFrame,
            (15, &[frame]) => Call::DeallocateFrame { frame },
            (16, &[frame]) => Call::MarkAllocated { frame },
            (17, &[frame]) => Call::IsAllocated { frame },
            (18, &[addr]) => Call::IsVmallocAddr { addr },
            (19, &[addr, size, prot]) => Call::Mprotect { addr, size, prot: prot as i32 },
            (20, &[]) => Call::Counts,
            (21, &[addr, write]) => Call::UserMay { addr, write: truth(write)? },
            _ => return None,
        })
    }
}

impl fmt::Display for Call {
    /// The name and the fields, as in `munmap addr=1000 size=2000` (hexadecimal).
    fn fmt(&self, f: &mut fmt::Formatter) -> fmt::Result {
        write!(f, "{}", self.shape().name)?;
        for ((name, _), value) in self.shape().fields.iter().zip(self.fields()) {
            write!(f, " {name}={value:x}")?;
        }
        Ok(())
    }
}

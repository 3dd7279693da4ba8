//! The table of calls: how each field that a call has on the tape stands in a text. Reading, writing and the listing
//! for help are made from it, so that a further call is a further row.

use super::bits::Bits;
use Field::{Keyed, Named, Number, OneOf, Options, Wish, Wished};

/// A line of a text.
pub struct Row {
    /// The tape's kind, 0 if the line is no call. Two rows have one kind where the name tells a field.
    pub kind: u8,
    pub name: &'static str,
    /// One for each field of the kind's `Shape`, in its order. In a text the options follow the arguments.
    pub fields: &'static [Field],
    /// What the call does, for a listing.
    pub does: &'static str,
}

/// How a field stands in a text.
pub enum Field {
    /// Not at all: the name of the call tells it.
    Named(u64),
    /// As a number.
    Number(Noun),
    /// Not at all: it is 1 if there is one number more than the `Number`s, the wished address, else 0.
    Wish,
    /// As a number if there is a wish, else behind `unused=`, or not at all if it is 0.
    Wished(Noun),
    /// As one of these words.
    OneOf(&'static [(&'static str, u64)]),
    /// Behind a key, as `frames` in `frames=16`, or not at all.
    Keyed(&'static str, Noun),
    /// As options.
    Options(&'static Bits),
}

/// What a number is, and how it is written.
pub struct Noun {
    /// What stands for it in a syntax.
    pub place: &'static str,
    /// Its name in a mistake.
    pub what: &'static str,
    /// It is written in decimal below this, else in hexadecimal.
    pub decimal_below: u64,
}

/// The option for the address that a tape holds where none is wished for.
pub const UNUSED: &str = "unused";

const AN_ADDRESS: Noun = noun("ADDR", "an address", 0);
const A_PHYSICAL: Noun = noun("PHYS", "a physical address", 0);

const SIZE: Field = Number(noun("SIZE", "a size", 1 << 16));
const ADDRESS: Field = Number(AN_ADDRESS);
const VIRTUAL: Field = Number(noun("VIRT", "a virtual address", 0));
const PHYSICAL: Field = Number(A_PHYSICAL);
const FRAME: Field = Number(noun("FRAME", "a frame's number", 0));

const FRAMES: Field = Keyed("frames", noun("N", "a number of frames", u64::MAX));
const FROM: Field = Keyed("from", A_PHYSICAL);
const LEVELS: Field = Keyed("levels", noun("N", "a number of levels", u64::MAX));

const HUGE: Field = OneOf(&[("2m", 0), ("1g", 1)]);

/// docs/src, mmap.rs: PROT_READ, PROT_WRITE, PROT_EXEC.
const A_PROTECTION: Bits = Bits {
    key: "prot",
    place: "P",
    what: "a protection",
    width: 4,
    names: &[("none", 0), ("r", 1), ("w", 2), ("x", 4)],
    alone: 0,
    default: Some(3),
};
const PROTECTION: Field = Options(&A_PROTECTION);
const NEW_PROTECTION: Field = Options(&Bits { default: None, ..A_PROTECTION });

/// docs/src, mmap.rs: MAP_SHARED, MAP_PRIVATE, MAP_FIXED, MAP_ANONYMOUS.
const MAP_FLAGS: Field = Options(&Bits {
    key: "flags",
    place: "F",
    what: "flags",
    width: 4,
    names: &[("shared", 1), ("private", 2), ("fixed", 0x10), ("anonymous", 0x20)],
    alone: 0x10,
    default: Some(0),
});

/// The flags byte of a map call.
const PAGE_FLAGS: Field = Options(&Bits {
    key: "flags",
    place: "N",
    what: "flags",
    width: 1,
    names: &[("writable", 1), ("user", 2)],
    alone: 3,
    default: Some(0),
});

/// docs/src, page_fault.rs: PRESENT, WRITE, USER, RESERVED, INSTRUCTION.
const CODE: Field = Options(&Bits {
    key: "code",
    place: "N",
    what: "an error code",
    width: 8,
    names: &[("present", 1), ("write", 2), ("user", 4), ("reserved", 8), ("fetch", 16)],
    alone: 31,
    default: Some(0),
});

/// The board's line.
pub const BOARD: Row = row(
    0,
    "board",
    &[FRAMES, FROM, LEVELS],
    "the board, before the first call: what is left out is 16 frames, from 0x100000, 4 levels",
);

/// The lines of a rest: their first word, what follows it in a syntax, and what they are.
pub const BYTES: (&str, &str, &str) =
    ("bytes", "HEX...", "behind the last call: what stands on a malformed tape behind it");

/// All calls.
pub const ROWS: &[Row] = &[
    row(1, "vmalloc", &[SIZE], "takes pages for the kernel; answers their start"),
    row(2, "vfree", &[ADDRESS], "releases the vmalloc region that starts there"),
    row(
        3,
        "mmap",
        &[Wish, Wished(AN_ADDRESS), SIZE, PROTECTION, MAP_FLAGS],
        "takes pages for user code, at ADDR if it can or, fixed, must; answers their start",
    ),
    row(4, "munmap", &[ADDRESS, SIZE], "releases the mmap region of this start and size"),
    row(5, "fault", &[ADDRESS, CODE], "a page fault, by the first path (page_fault.rs)"),
    row(6, "translate", &[ADDRESS], "answers the physical address"),
    row(7, "second_fault", &[ADDRESS, CODE], "a page fault, by the second path (page_handler.rs)"),
    row(8, "map_page", &[VIRTUAL, PHYSICAL, PAGE_FLAGS], "maps a page"),
    row(9, "unmap_page", &[VIRTUAL], "takes a page's mapping away; answers its frame"),
    row(
        10,
        "map_huge_page",
        &[VIRTUAL, PHYSICAL, HUGE, PAGE_FLAGS],
        "maps a page of 2 MiB or of 1 GiB",
    ),
    row(11, "mark_cow", &[ADDRESS], "marks a page copy-on-write"),
    row(12, "unmark_cow", &[ADDRESS], "takes that mark away"),
    row(13, "is_cow", &[ADDRESS], "answers 1 if the page is marked copy-on-write, else 0"),
    row(14, "allocate_frame", &[], "takes the lowest free frame; answers its number"),
    row(15, "deallocate_frame", &[FRAME], "gives a frame back; answers what it found of it"),
    row(16, "mark_allocated", &[FRAME], "marks a frame"),
    row(17, "is_allocated", &[FRAME], "answers 1 if the frame is marked, else 0"),
    row(18, "is_vmalloc_addr", &[ADDRESS], "answers 1 if it lies in the kernel window, else 0"),
    row(
        19,
        "mprotect",
        &[ADDRESS, SIZE, NEW_PROTECTION],
        "gives the mmap region of this start and size another protection",
    ),
    row(20, "allocated_frames", &[], "answers the number of marked frames"),
    row(21, "may_read", &[ADDRESS, Named(0)], "answers 1 if user code may read there, else 0"),
    row(21, "may_write", &[ADDRESS, Named(1)], "answers 1 if user code may write there, else 0"),
];

const fn row(kind: u8, name: &'static str, fields: &'static [Field], does: &'static str) -> Row {
    Row { kind, name, fields, does }
}

const fn noun(place: &'static str, what: &'static str, decimal_below: u64) -> Noun {
    Noun { place, what, decimal_below }
}

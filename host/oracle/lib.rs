//! The original memory manager, built to run as a user program: the seven modules as
//! `prepare` wrote them, and the oracle that plays calls on them.

extern crate alloc;

macro_rules! original {
    ($($path:literal $name:ident),*) => {
        $(
            #[path = $path]
            #[allow(dead_code, unused_unsafe, unstable_name_collisions, clippy::all)]
            pub mod $name;
        )*
    };
}

original! {
    "../../target/host/oracle/src/allocator.rs" allocator,
    "../../target/host/oracle/src/frame.rs" frame,
    "../../target/host/oracle/src/paging.rs" paging,
    "../../target/host/oracle/src/vmalloc.rs" vmalloc,
    "../../target/host/oracle/src/mmap.rs" mmap,
    "../../target/host/oracle/src/page_fault.rs" page_fault,
    "../../target/host/oracle/src/page_handler.rs" page_handler
}

pub mod oracle;
mod stand_in;

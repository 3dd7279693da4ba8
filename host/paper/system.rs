//! What the system knows of the standard streams.

use std::sync::atomic::{AtomicU8, Ordering};

/// The descriptor of standard input.
pub const INPUT: i32 = 0;
/// .. of standard output.
pub const OUTPUT: i32 = 1;
/// .. of standard error.
pub const ERRORS: i32 = 2;

/// The request for a terminal's size and the one for a descriptor's flags, as Linux has them.
const GET_SIZE: u64 = 0x5413;
const GET_FLAGS: i32 = 1;

/// A terminal's size, as its request writes it.
#[repr(C)]
#[derive(Default)]
struct Size {
    rows: u16,
    columns: u16,
    pixels: [u16; 2],
}

extern "C" {
    fn isatty(descriptor: i32) -> i32;
    fn ioctl(descriptor: i32, request: u64, ...) -> i32;
    fn fcntl(descriptor: i32, request: i32, ...) -> i32;
}

/// Whether a descriptor is a terminal.
pub fn is_terminal(descriptor: i32) -> bool {
    // SAFETY: any number may be asked of.
    unsafe { isatty(descriptor) == 1 }
}

/// How many columns a terminal has, if it says so.
pub fn columns(descriptor: i32) -> Option<usize> {
    let mut size = Size::default();
    // SAFETY: the request writes one such size, and nothing where it fails.
    let failed = unsafe { ioctl(descriptor, GET_SIZE, &mut size as *mut Size) } != 0;
    Some(usize::from(size.columns)).filter(|columns| !failed && *columns > 0)
}

/// The streams that were closed when the program began, a bit for each descriptor.
static CLOSED: AtomicU8 = AtomicU8::new(0);

/// Rust opens /dev/null in place of a closed stream before `main`, so that this has to be asked earlier: Linux calls
/// the functions that are named in this section first.
#[used]
#[cfg_attr(target_os = "linux", link_section = ".init_array")]
static ASK: extern "C" fn() = ask;

extern "C" fn ask() {
    for descriptor in [INPUT, OUTPUT] {
        // SAFETY: any number may be asked of, and the request takes no argument.
        if unsafe { fcntl(descriptor, GET_FLAGS) } < 0 {
            CLOSED.fetch_or(1 << descriptor, Ordering::Relaxed);
        }
    }
}

/// Whether the program was started without standard input or without standard output.
pub fn was_closed(descriptor: i32) -> bool {
    CLOSED.load(Ordering::Relaxed) & 1 << descriptor != 0
}

//! Memory between two pages that nothing may touch, so that an access outside what is lent
//! ends the program, and a watchdog that ends a program that hangs. Both say where it was.

#![allow(dead_code)] // no program uses all of it

use crate::report::{equal, Report};
use calls::Call;
use std::ffi::c_void;
use std::mem::size_of_val;
use std::ops::{Deref, DerefMut};
use std::process::Command;
use std::sync::Mutex;
use std::time::{Duration, Instant};
use std::{env, process, thread};

const PAGE: usize = 4096;
const PROT_NONE: i32 = 0;
const PROT_READ_WRITE: i32 = 3;
/// MAP_PRIVATE and MAP_ANONYMOUS.
const ANONYMOUS: i32 = 0x2 | 0x20;
const SIGSEGV: i32 = 11;
const OUTSIDE: &str = "FAILED an access outside what is lent ended the program";
const HANGING: &str = "FAILED no end within the time allowed";

/// The longest that a check, or a sequence of one, may go without a call of the port, in seconds.
const PATIENCE: u32 = 300;

extern "C" {
    fn mmap(
        addr: *mut c_void,
        length: usize,
        prot: i32,
        flags: i32,
        fd: i32,
        offset: i64,
    ) -> *mut c_void;
    fn mprotect(addr: *mut c_void, length: usize, prot: i32) -> i32;
    fn munmap(addr: *mut c_void, length: usize) -> i32;
    fn signal(number: i32, handler: extern "C" fn(i32)) -> usize;
    fn write(file: i32, bytes: *const u8, count: usize) -> isize;
    fn _exit(status: i32) -> !;
}

/// Which guard the items touch, where they fill no whole number of pages.
#[derive(Clone, Copy)]
pub enum Against {
    Before,
    Behind,
}

/// Bytes or words between two guards.
pub struct Guarded<T: Copy> {
    mapping: *mut u8,
    bytes: usize,
    start: *mut T,
    count: usize,
}

impl<T: Copy> Guarded<T> {
    /// A guarded copy.
    pub fn copy(items: &[T], against: Against) -> Guarded<T> {
        let used = size_of_val(items);
        let filled = (used + PAGE - 1) / PAGE * PAGE;
        let bytes = filled + 2 * PAGE;
        // SAFETY: a new mapping that replaces none; its middle is then opened.
        let mapping = unsafe {
            let mapping = mmap(std::ptr::null_mut(), bytes, PROT_NONE, ANONYMOUS, -1, 0);
            assert!(mapping as usize != usize::MAX, "no memory for {used} bytes");
            let middle = mapping.cast::<u8>().add(PAGE);
            assert!(filled == 0 || mprotect(middle.cast(), filled, PROT_READ_WRITE) == 0);
            mapping.cast::<u8>()
        };
        let slack = match against {
            Against::Before => 0,
            Against::Behind => filled - used,
        };
        // SAFETY: within the mapping. A page's end is a multiple of an item's alignment.
        let start = unsafe { mapping.add(PAGE + slack) }.cast();
        let mut guarded = Guarded { mapping, bytes, start, count: items.len() };
        guarded.copy_from_slice(items);
        guarded
    }
}

impl<T: Copy> Deref for Guarded<T> {
    type Target = [T];

    fn deref(&self) -> &[T] {
        // SAFETY: the mapping lives as long as self and is open here.
        unsafe { std::slice::from_raw_parts(self.start, self.count) }
    }
}

impl<T: Copy> DerefMut for Guarded<T> {
    fn deref_mut(&mut self) -> &mut [T] {
        // SAFETY: as above.
        unsafe { std::slice::from_raw_parts_mut(self.start, self.count) }
    }
}

impl<T: Copy> Drop for Guarded<T> {
    fn drop(&mut self) {
        // SAFETY: the mapping is ours, and no view of it outlives self.
        unsafe { munmap(self.mapping.cast(), self.bytes) };
    }
}

/// An array between two guards, for what is lent without a length.
pub struct GuardedArray<T: Copy, const N: usize>(Guarded<T>);

impl<T: Copy, const N: usize> GuardedArray<T, N> {
    /// A guarded copy.
    pub fn copy(items: &[T; N], against: Against) -> GuardedArray<T, N> {
        GuardedArray(Guarded::copy(items, against))
    }
}

impl<T: Copy, const N: usize> Deref for GuardedArray<T, N> {
    type Target = [T; N];

    fn deref(&self) -> &[T; N] {
        self.0[..].try_into().expect("as many items as were copied")
    }
}

impl<T: Copy, const N: usize> DerefMut for GuardedArray<T, N> {
    fn deref_mut(&mut self) -> &mut [T; N] {
        (&mut self.0[..]).try_into().expect("as many items as were copied")
    }
}

/// Where the program is, and how long it may be there.
struct Place {
    name: String,
    /// The call that the port was given last.
    call: Option<Call>,
    since: Instant,
    patience: Duration,
}

static PLACE: Mutex<Option<Place>> = Mutex::new(None);

/// Has an access to a guard reported as a failed check, and a check that does not end.
pub fn watch() {
    at("the beginning");
    // SAFETY: the handler only writes and ends the program.
    unsafe { signal(SIGSEGV, outside) };
    thread::spawn(|| loop {
        thread::sleep(Duration::from_millis(500));
        if with_place(|place| place.since.elapsed() > place.patience) == Some(true) {
            end_with(HANGING);
        }
    });
}

/// Names the check, sequence or list that begins, which may take as long as any.
pub fn at(name: impl Into<String>) {
    let patience = Duration::from_secs(PATIENCE.into());
    *lock() = Some(Place { name: name.into(), call: None, since: Instant::now(), patience });
}

/// Names the call that the port is given, which may take as long again.
pub fn calling(call: &Call) {
    with_place(|place| {
        place.call = Some(*call);
        place.since = Instant::now();
    });
}

/// Has the program end with a failed check unless the next step comes within so many seconds, a step being
/// this, `at` or a call of the port.
pub fn within(seconds: u32) {
    with_place(|place| {
        place.since = Instant::now();
        place.patience = Duration::from_secs(seconds.into());
    });
}

fn lock() -> std::sync::MutexGuard<'static, Option<Place>> {
    PLACE.lock().unwrap_or_else(|poisoned| poisoned.into_inner())
}

fn with_place<T>(see: impl FnOnce(&mut Place) -> T) -> Option<T> {
    lock().as_mut().map(see)
}

/// That the word before lent ones and the word behind them cannot be read, and that a program that
/// hangs is ended: programs of their own try it, since they end there.
pub fn check(report: &mut Report) {
    for word in ["-1", "3"] {
        let name = format!("guards: word {word} of three lent ones cannot be read");
        report.check(&name, ended(&["--touch", word], OUTSIDE));
    }
    report.check("guards: a program that hangs is ended", ended(&["--hang", "1"], HANGING));
}

/// That a program of its own ends with this message, and says where it was.
fn ended(words: &[&str], message: &str) -> Result<(), String> {
    let program = env::current_exe().map_err(|why| why.to_string())?;
    let output = Command::new(program).args(words).output();
    let output = output.map_err(|why| why.to_string())?;
    let text = String::from_utf8_lossy(&output.stdout).into_owned();
    equal(
        (output.status.code(), text),
        (Some(1), format!("{message}: a trial, at allocated_frames\n")),
    )
}

/// If the program was started by `check`: reads a word beside three lent ones, or hangs, and does not
/// come back.
pub fn touch_if_told() {
    let words: Vec<String> = env::args().skip(1).collect();
    let (told, number) = match words.as_slice() {
        [told, number] => (told.as_str(), number.parse::<isize>()),
        _ => return,
    };
    let number = match (told, number) {
        ("--touch" | "--hang", Ok(number)) => number,
        _ => return,
    };
    watch();
    at("a trial");
    calling(&Call::Counts);
    if told == "--hang" {
        within(number as u32);
        thread::sleep(Duration::from_secs(60));
        process::exit(0)
    }
    let against = if number < 0 { Against::Before } else { Against::Behind };
    let lent = Guarded::copy(&[0u64; 3], against);
    // SAFETY: inside the mapping, whose guards end the program.
    let read = unsafe { lent.start.offset(number).read_volatile() };
    println!("read {read:x}");
    process::exit(0)
}

extern "C" fn outside(_: i32) {
    end_with(OUTSIDE)
}

/// Ends the program with a failed check. The place is left out if it is being written just now.
fn end_with(message: &str) -> ! {
    let place = match PLACE.try_lock().as_deref() {
        Ok(Some(Place { name, call: Some(call), .. })) => format!(": {name}, at {call}"),
        Ok(Some(Place { name, .. })) => format!(": {name}"),
        _ => String::new(),
    };
    let message = format!("{message}{place}\n");
    // SAFETY: both calls are allowed in a signal handler.
    unsafe {
        write(1, message.as_ptr(), message.len());
        _exit(1)
    }
}

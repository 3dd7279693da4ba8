//! Programs run with a time limit: what they wrote on both outputs, and how they ended.

use std::io::{Read, Write};
use std::os::unix::process::ExitStatusExt;
use std::process::{Command, ExitStatus, Stdio};
use std::sync::mpsc;
use std::thread;
use std::time::{Duration, Instant};

/// What comes on standard input.
pub enum Input {
    Bytes(Vec<u8>),
    /// The same bytes over and over, until the program stops reading.
    Endless(Vec<u8>),
    /// A file, a folder, or another end that is open already.
    Open(Stdio),
}

pub struct Ended {
    pub stdout: String,
    pub stderr: String,
    pub status: ExitStatus,
}

impl Ended {
    /// The status as a shell has it: 128 and the signal's number for a program that was killed.
    pub fn code(&self) -> i32 {
        self.status.code().unwrap_or_else(|| 128 + self.status.signal().unwrap_or(0))
    }
}

/// Runs a program until it ends, or says that it did not within the seconds given. With `cut`, its standard output is closed once that
/// many bytes are read.
pub fn run(
    command: &mut Command,
    input: Input,
    cut: Option<usize>,
    seconds: u64,
) -> Result<Ended, String> {
    let say = |why: std::io::Error| format!("the program cannot be run: {why}");
    let (bytes, endless) = match &input {
        Input::Bytes(bytes) => (bytes.clone(), false),
        Input::Endless(bytes) => (bytes.clone(), true),
        Input::Open(_) => (Vec::new(), false),
    };
    match input {
        Input::Open(stdio) => command.stdin(stdio),
        _ => command.stdin(Stdio::piped()),
    };
    let mut child = command.stderr(Stdio::piped()).spawn().map_err(say)?;
    if let Some(mut pipe) = child.stdin.take() {
        // A program that ends before the tape does closes the pipe, so that a write fails.
        thread::spawn(move || while pipe.write_all(&bytes).is_ok() && endless {});
    }
    let stdout = child.stdout.take().map(|pipe| collect(pipe, cut));
    let stderr = child.stderr.take().map(|pipe| collect(pipe, None));
    let until = Instant::now() + Duration::from_secs(seconds);
    let status = loop {
        match child.try_wait().map_err(say)? {
            Some(status) => break status,
            None if Instant::now() > until => {
                let _ = child.kill();
                let _ = child.wait();
                return Err(format!("the program did not end within {seconds} seconds"));
            }
            None => thread::sleep(Duration::from_millis(5)),
        }
    };
    let text = |got: Option<mpsc::Receiver<String>>| match got {
        Some(got) => got
            .recv_timeout(Duration::from_secs(seconds))
            .map_err(|_| "an output stays open behind the program".to_string()),
        None => Ok(String::new()),
    };
    Ok(Ended { stdout: text(stdout)?, stderr: text(stderr)?, status })
}

/// All that comes from a pipe, or so many bytes of it.
fn collect(mut pipe: impl Read + Send + 'static, most: Option<usize>) -> mpsc::Receiver<String> {
    let (sender, receiver) = mpsc::channel();
    thread::spawn(move || {
        let mut bytes = Vec::new();
        match most {
            Some(most) => {
                bytes.resize(most, 0);
                let _ = pipe.read_exact(&mut bytes);
            }
            None => {
                let _ = pipe.read_to_end(&mut bytes);
            }
        }
        drop(pipe);
        let _ = sender.send(String::from_utf8_lossy(&bytes).into_owned());
    });
    receiver
}

/// A terminal: its two ends, one for the test and one for the program.
pub fn terminal() -> Result<(std::fs::File, std::fs::File), String> {
    use std::ffi::CStr;
    use std::os::unix::fs::OpenOptionsExt;
    use std::os::unix::io::FromRawFd;
    extern "C" {
        fn posix_openpt(flags: i32) -> i32;
        fn grantpt(fd: i32) -> i32;
        fn unlockpt(fd: i32) -> i32;
        fn ptsname(fd: i32) -> *const std::os::raw::c_char;
    }
    // SAFETY: a new descriptor that nothing else owns, and a name that is copied before another call.
    unsafe {
        let (read_write, no_controlling) = (2, 0o400);
        let fd = posix_openpt(read_write | no_controlling);
        if fd < 0 || grantpt(fd) != 0 || unlockpt(fd) != 0 {
            return Err("no terminal".to_string());
        }
        let mine = std::fs::File::from_raw_fd(fd);
        let name = CStr::from_ptr(ptsname(fd)).to_string_lossy().into_owned();
        let open = std::fs::File::options()
            .read(true)
            .write(true)
            .custom_flags(no_controlling)
            .open(&name);
        Ok((mine, open.map_err(|why| format!("{name}: {why}"))?))
    }
}

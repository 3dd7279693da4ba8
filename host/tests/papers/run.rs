//! Runs of the tool, and the folder that they may write into.

use crate::process::{self, Ended, Input};
use crate::report::{equal, holds};
use paper::Console;
use std::cell::RefCell;
use std::fs;
use std::io::{self, Cursor, Write};
use std::path::PathBuf;
use std::process::{Command, Stdio};
use std::rc::Rc;

/// The tool as a program.
pub const PROGRAM: &str = "target/host/paper";

/// Seconds within which a run of the program must end.
pub const LIMIT: u64 = 60;

/// What a run came to.
#[derive(Debug)]
pub struct Run {
    pub status: u8,
    pub output: Vec<u8>,
    pub errors: String,
}

/// A stream that keeps what is written.
#[derive(Clone, Default)]
struct Kept(Rc<RefCell<Vec<u8>>>);

impl Write for Kept {
    fn write(&mut self, bytes: &[u8]) -> io::Result<usize> {
        self.0.borrow_mut().extend_from_slice(bytes);
        Ok(bytes.len())
    }

    fn flush(&mut self) -> io::Result<()> {
        Ok(())
    }
}

/// Runs the tool in this process on the words of a command line, with these bytes on its standard input.
pub fn tool(words: &[&str], input: &[u8]) -> Run {
    let (output, errors) = (Kept::default(), Kept::default());
    let input = Cursor::new(input.to_vec());
    let mut console =
        Console::of(Box::new(input), Box::new(output.clone()), Box::new(errors.clone()));
    let words: Vec<String> = words.iter().map(|word| word.to_string()).collect();
    let status = paper::run(&words, &mut console);
    drop(console);
    let errors = String::from_utf8_lossy(&errors.0.borrow()).into_owned();
    let output = output.0.borrow().clone();
    Run { status, output, errors }
}

impl Run {
    /// Standard output as a text.
    pub fn text(&self) -> String {
        String::from_utf8_lossy(&self.output).into_owned()
    }

    /// That it ended so, and said nothing on standard error.
    pub fn quiet(self, status: u8) -> Result<Run, String> {
        holds(self.errors.is_empty(), &format!("no words such as `{}`", self.errors))?;
        self.ended(status)
    }

    /// That it ended so.
    pub fn ended(self, status: u8) -> Result<Run, String> {
        match self.status == status {
            true => Ok(self),
            false => Err(format!("status {}, wanted {status}: {}", self.status, self.errors)),
        }
    }

    /// That it failed with status 1, words on standard error that have these among them, and nothing on standard output.
    pub fn failed_with(self, words: &[&str]) -> Result<Run, String> {
        let run = self.ended(1)?;
        for word in words {
            holds(run.errors.contains(word), &format!("`{word}` in `{}`", run.errors))?;
        }
        equal(run.text().as_str(), "")?;
        Ok(run)
    }
}

/// The tool as a program, its standard output a pipe.
pub fn program(words: &[&str]) -> Command {
    let mut command = Command::new(PROGRAM);
    command.args(words).stdout(Stdio::piped());
    command
}

/// Runs the program with these bytes on its standard input.
pub fn process(words: &[&str], input: &[u8]) -> Result<Ended, String> {
    process::run(&mut program(words), Input::Bytes(input.to_vec()), None, LIMIT)
}

/// A folder below target/host, removed when it is dropped.
pub struct Room {
    path: PathBuf,
}

impl Room {
    pub fn open() -> Result<Room, String> {
        let path = PathBuf::from(format!("target/host/papers.{}", std::process::id()));
        fs::create_dir_all(&path).map_err(|why| format!("{}: {why}", path.display()))?;
        Ok(Room { path })
    }

    /// The path of a name in it.
    pub fn path(&self, name: &str) -> String {
        self.path.join(name).to_string_lossy().into_owned()
    }

    /// Writes a file: its path.
    pub fn file(&self, name: &str, bytes: impl AsRef<[u8]>) -> Result<String, String> {
        let path = self.path(name);
        fs::write(&path, bytes).map_err(|why| format!("{path}: {why}"))?;
        Ok(path)
    }

    /// A file's bytes.
    pub fn read(&self, name: &str) -> Result<Vec<u8>, String> {
        let path = self.path(name);
        fs::read(&path).map_err(|why| format!("{path}: {why}"))
    }

    /// .. as a text.
    pub fn text(&self, name: &str) -> Result<String, String> {
        String::from_utf8(self.read(name)?).map_err(|_| format!("{name} is no text"))
    }

    /// The names in a folder of it, in their order; none if there is no such folder.
    pub fn names(&self, name: &str) -> Vec<String> {
        let entries = fs::read_dir(self.path.join(name)).into_iter().flatten().flatten();
        let mut names: Vec<String> =
            entries.map(|entry| entry.file_name().to_string_lossy().into_owned()).collect();
        names.sort();
        names
    }

    /// Removes what stands there, if anything does.
    pub fn clear(&self, name: &str) {
        let path = self.path.join(name);
        let _ = fs::remove_dir_all(&path).or_else(|_| fs::remove_file(&path));
    }
}

impl Drop for Room {
    fn drop(&mut self) {
        let _ = fs::remove_dir_all(&self.path);
    }
}

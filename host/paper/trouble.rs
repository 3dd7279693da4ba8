//! How a run of the tool ends.

use crate::{help, Console};
use calls::text::Mistake;
use gadulnos::Refusal;
use std::fmt::{self, Display, Formatter};
use std::io;

/// How a run ends that did what it was asked.
#[derive(Clone, Copy, Debug, PartialEq, Eq)]
pub enum Status {
    /// All is well.
    Done = 0,
    /// The tape is malformed: what stands before the place was done.
    Malformed = 2,
    /// Answers or boards differ.
    Differs = 3,
}

/// Why a run could not do what it was asked. Its status is 1.
#[derive(Debug)]
pub enum Trouble {
    /// The command line is empty.
    NoVerb,
    /// The command line is wrong; the words say how.
    Usage(String),
    /// A file cannot be read or written.
    File(String, io::Error),
    /// A text has mistakes.
    Mistakes(String, Vec<Mistake>),
    /// A board cannot be started.
    Start(Refusal),
    /// Anything else, in words.
    Said(String),
    /// Standard output or standard error is closed or full.
    Output(io::Error),
}

impl From<io::Error> for Trouble {
    fn from(why: io::Error) -> Trouble {
        Trouble::Output(why)
    }
}

impl Display for Trouble {
    fn fmt(&self, f: &mut Formatter) -> fmt::Result {
        match self {
            Trouble::NoVerb => f.write_str(help::overview(help::WIDTH).trim_end()),
            Trouble::Usage(why) => write!(f, "paper: {why}\npaper: `paper help` tells more"),
            Trouble::File(name, why) => write!(f, "paper: {name}: {}", words(why)),
            Trouble::Mistakes(name, mistakes) => {
                let lines: Vec<String> =
                    mistakes.iter().map(|mistake| format!("{name}:{mistake}")).collect();
                f.write_str(&lines.join("\n"))
            }
            Trouble::Start(why) => write!(f, "paper: the board cannot be started: {}", start(*why)),
            Trouble::Said(why) => write!(f, "paper: {why}"),
            Trouble::Output(why) => {
                write!(f, "paper: the output cannot be written: {}", words(why))
            }
        }
    }
}

/// Why a start is refused so.
fn start(why: Refusal) -> String {
    let case = match why {
        Refusal::BrokenRecord => "its memory must end at or below 2^52",
        Refusal::NoFreeFrame => "it has no frame for the root",
        _ => why.words(),
    };
    format!("{} {}: {case}", why.number(), why.name())
}

/// What the system says, without its own number.
fn words(why: &io::Error) -> String {
    let said = why.to_string();
    said.split(" (os error").next().unwrap_or_default().to_lowercase()
}

/// The status of a run, and its words on standard error. A reader that went away is told nothing.
pub(crate) fn end(ended: Result<Status, Trouble>, console: &mut Console) -> u8 {
    console.clear_line();
    let ended = ended.and_then(|status| console.flush().map(|()| status).map_err(Trouble::Output));
    match ended {
        Ok(status) => status as u8,
        Err(Trouble::Output(why)) if why.kind() == io::ErrorKind::BrokenPipe => 1,
        Err(trouble) => {
            // Where standard error is closed there is nobody to tell.
            let _ = writeln!(console.errors(), "{}", plain(&trouble.to_string()));
            1
        }
    }
}

/// A text as a terminal may show it: control characters of names and answers are spelt out.
pub(crate) fn plain(text: &str) -> String {
    let spelt = |letter: char| -> String {
        if letter.is_control() && letter != '\n' {
            letter.escape_default().collect()
        } else {
            letter.to_string()
        }
    };
    text.chars().map(spelt).collect()
}

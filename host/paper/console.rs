//! The streams that a run of the tool has.

use crate::system;
use crate::trouble::plain;
use std::env;
use std::io::{self, BufWriter, Read, Write};

/// Standard input, output and error, or what stands for them in a test.
pub struct Console {
    input: Box<dyn Read>,
    output: Box<dyn Write>,
    errors: Box<dyn Write>,
    /// Whether standard input is a terminal.
    pub input_is_terminal: bool,
    /// Whether standard output is a terminal.
    pub output_is_terminal: bool,
    /// Whether progress may be shown: standard error is a terminal.
    pub shows_progress: bool,
    /// How many columns a line of text may have.
    pub width: usize,
    /// How many columns the line of progress has that stands on standard error; 0 if there is none.
    line: usize,
}

/// The width of lines that go to no terminal, and the least of those that go to one.
const WIDTH: usize = 100;
const LEAST_WIDTH: usize = 60;

impl Console {
    /// The streams of the process.
    pub fn standard() -> Console {
        let input: Box<dyn Read> = if system::was_closed(system::INPUT) {
            Box::new(Closed)
        } else {
            Box::new(io::stdin())
        };
        let output: Box<dyn Write> = if system::was_closed(system::OUTPUT) {
            Box::new(Closed)
        } else {
            Box::new(BufWriter::with_capacity(1 << 16, io::stdout()))
        };
        let output_is_terminal = system::is_terminal(system::OUTPUT);
        Console {
            input_is_terminal: system::is_terminal(system::INPUT),
            output_is_terminal,
            shows_progress: system::is_terminal(system::ERRORS),
            width: if output_is_terminal { terminal_width() } else { WIDTH },
            ..Console::of(input, output, Box::new(io::stderr()))
        }
    }

    /// Streams of a test's own.
    pub fn of(input: Box<dyn Read>, output: Box<dyn Write>, errors: Box<dyn Write>) -> Console {
        Console {
            input,
            output,
            errors,
            input_is_terminal: false,
            output_is_terminal: false,
            shows_progress: false,
            width: WIDTH,
            line: 0,
        }
    }

    /// Standard input.
    pub fn input(&mut self) -> &mut dyn Read {
        &mut self.input
    }

    /// Standard output.
    pub fn output(&mut self) -> &mut dyn Write {
        &mut self.output
    }

    /// Standard error.
    pub fn errors(&mut self) -> &mut dyn Write {
        &mut self.errors
    }

    /// Writes what is still held back.
    pub fn flush(&mut self) -> io::Result<()> {
        self.output.flush()
    }

    /// Tells something on standard error, behind all that was written before. Where that is closed or full there is
    /// nobody to tell.
    pub fn note(&mut self, words: &str) -> io::Result<()> {
        self.clear_line();
        self.flush()?;
        let _ = writeln!(self.errors, "paper: {}", plain(words));
        Ok(())
    }

    /// Shows a line of progress in place of the one that stands there. One that cannot be written is none.
    pub(crate) fn show_line(&mut self, text: &str) {
        let _ = write!(self.errors, "\r{text:0$}", self.line);
        let _ = self.errors.flush();
        self.line = self.line.max(text.chars().count());
    }

    /// Takes that line away, so that other words may follow.
    pub(crate) fn clear_line(&mut self) {
        if self.line > 0 {
            self.show_line("");
            let _ = write!(self.errors, "\r");
            self.line = 0;
        }
    }
}

/// What standard output's terminal says of its width, or the environment.
fn terminal_width() -> usize {
    let said = || env::var("COLUMNS").ok().and_then(|columns| columns.trim().parse().ok());
    system::columns(system::OUTPUT).or_else(said).unwrap_or(WIDTH).max(LEAST_WIDTH)
}

/// A stream that the program was started without.
struct Closed;

impl Closed {
    fn trouble() -> io::Error {
        io::Error::new(io::ErrorKind::Other, "it is closed")
    }
}

impl Read for Closed {
    fn read(&mut self, _: &mut [u8]) -> io::Result<usize> {
        Err(Closed::trouble())
    }
}

impl Write for Closed {
    fn write(&mut self, _: &[u8]) -> io::Result<usize> {
        Err(Closed::trouble())
    }

    fn flush(&mut self) -> io::Result<()> {
        Ok(())
    }
}

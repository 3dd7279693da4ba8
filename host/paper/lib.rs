//! The examiner's tool `paper`: papers as texts and tapes, their keys, the board to look at, orders of releases for
//! seats, and marking. Every frame, region and word that it shows is what the C functions left.

mod assemble;
mod console;
mod explain;
mod help;
mod key;
mod mark;
mod new;
mod options;
mod output;
mod play;
mod progress;
mod seats;
mod show;
mod source;
mod system;
mod translate;
mod trouble;
mod words;

pub use console::Console;
pub use options::{Choice, Options, Verb};
pub use play::{board, Played};
pub use progress::Progress;
pub use source::Source;
pub use trouble::{Status, Trouble};

/// What the tool can do. Each verb ends with a [`Status`], or with 1 and a [`Trouble`] that is told on standard error.
pub const VERBS: &[&Verb] = &[
    &assemble::ASSEMBLE,
    &assemble::DISASSEMBLE,
    &key::KEY,
    &show::SHOW,
    &translate::TRANSLATE,
    &seats::SEATS,
    &new::NEW,
    &mark::MARK,
];

/// Runs the tool on the words of a command line, without its own name: the status to end with. 0 is done; 1 cannot be
/// done, as standard error says (the command line, mistakes, files, a board that cannot be started); 2 a malformed
/// tape; 3 answers or boards that differ.
pub fn run(words: &[String], console: &mut Console) -> u8 {
    let ended = help::asked(words, console).unwrap_or_else(|| Options::read(words)?.run(console));
    trouble::end(ended, console)
}

//! `paper help`, and `--help` behind any verb.

use crate::options::Verb;
use crate::{Console, Status, Trouble, VERBS};
use gadulnos::Refusal;

/// The most columns that help has.
pub const WIDTH: usize = 100;

/// What a command line asks to be told, if it asks for help; nothing if it does not.
pub fn asked(words: &[String], console: &mut Console) -> Option<Result<Status, Trouble>> {
    let words: Vec<&str> = words.iter().map(String::as_str).collect();
    let width = console.width.min(WIDTH);
    let text = match words.as_slice() {
        ["help" | "--help" | "-h"] => Ok(overview(width)),
        ["help" | "--help" | "-h", topic, ..] => on(topic, width),
        [verb, rest @ ..] if wants_help(rest) => Verb::of(verb).map(|verb| page(verb, width)),
        _ => return None,
    };
    Some(text.and_then(|text| {
        console.output().write_all(text.as_bytes())?;
        Ok(Status::Done)
    }))
}

/// Whether a word asks for help. Behind a `--` none does.
fn wants_help(words: &[&str]) -> bool {
    let mut choices = words.iter().take_while(|word| **word != "--");
    choices.any(|word| matches!(*word, "--help" | "-h"))
}

/// Help on a topic: a verb, the calls or the numbers.
fn on(topic: &str, width: usize) -> Result<String, Trouble> {
    match topic {
        "help" | "--help" | "-h" => Ok(overview(width)),
        "calls" => Ok(calls(width)),
        "numbers" => Ok(numbers(width)),
        verb => Verb::of(verb).map(|verb| page(verb, width)),
    }
}

/// What the tool can do.
pub fn overview(width: usize) -> String {
    let verbs = VERBS.iter().map(|verb| (verb.name.to_string(), verb.about));
    let help = [
        ("help VERB", "tells all of a verb, as VERB --help does"),
        ("help calls", "lists the lines that a paper's text can have"),
        ("help numbers", "lists the numbers that refused calls answer"),
    ];
    let help = help.into_iter().map(|(topic, about)| (topic.to_string(), about));
    let head = flow(HEAD, width);
    format!("{head}\n{}\n{}", columns(verbs.chain(help), width), flow(FOOT, width))
}

const HEAD: &str = "\
paper VERB [WORDS] [CHOICES]: exam papers on the memory manager, their boards and their keys.";

/// How words and numbers stand on a command line, and how runs end.
const FOOT: &str = "\
A PAPER is a file: a text with a call on each line, or a tape (docs/TAPE.md). `-`, or no word, is
standard input. Its board is document 01's, 16 frames from 0x100000 with four levels of page tables,
where neither the paper nor choices say otherwise. Numbers are decimal or stand behind 0x. Behind
`--` no word is a choice.

Status:
  0  done
  1  cannot be done, with words on standard error: the command line,
     mistakes in a text, a file, a board that cannot be started
  2  the tape is malformed; what stands before that place was done
  3  answers or boards differ";

/// All of a verb.
fn page(verb: &'static Verb, width: usize) -> String {
    let Verb { name, words, about, more, example, .. } = verb;
    let choices = verb.all_choices().map(|choice| {
        let value = if choice.value.is_empty() { "" } else { " " };
        (format!("--{}{value}{}", choice.name, choice.value), choice.about)
    });
    let choices = columns(choices.chain([("--help".to_string(), "tells this")]), width);
    let examples: String = example.lines().map(|line| format!("  {line}\n")).collect();
    let (about, more) = (flow(about, width), flow(more, width));
    let words = if words.is_empty() { String::new() } else { format!(" {words}") };
    format!("paper {name}{words} [CHOICES]\n{about}\n{more}\n{choices}\nExample:\n{examples}")
}

/// The lines that a text can have.
fn calls(width: usize) -> String {
    let lines: String = calls::text::lines()
        .map(|(syntax, does)| {
            format!("  {syntax}\n{}", columns([(String::new(), does)].into_iter(), width))
        })
        .collect();
    let head = "A paper's text has a line for each call. A comment stands behind #.";
    format!("{}\n{lines}\n{}", flow(head, width), flow(CALLS_FOOT, width))
}

/// What the places in the syntax of calls stand for.
const CALLS_FOOT: &str = "\
What stands in brackets may be left out. Numbers are decimal or stand behind 0x: sizes in bytes,
addresses (ADDR, VIRT, PHYS), a frame's number (FRAME). P is none, letters out of rwx, or a number;
an mmap without it has rw. F is shared, private, fixed, anonymous or numbers, joined by +. HEX is
pairs of hexadecimal digits. unused= is what a tape holds for an mmap that names no address.";

/// The numbers that refused calls answer.
fn numbers(width: usize) -> String {
    let head = "A call that is met answers 0. docs/NUMBERS.md says which call answers what first.";
    let rows = Refusal::ALL
        .iter()
        .map(|refusal| (format!("{:2} {}", refusal.number(), refusal.name()), refusal.words()));
    format!("{}\n{}", flow(head, width), columns(rows, width))
}

/// Two columns, of which the second is wrapped.
fn columns<'a>(rows: impl Iterator<Item = (String, &'a str)>, width: usize) -> String {
    let rows: Vec<(String, &str)> = rows.collect();
    let left = rows.iter().map(|(left, _)| left.chars().count()).max().unwrap_or_default();
    let gap = format!("\n{:1$}", "", left + 4);
    let row = |(name, words): &(String, &str)| {
        let lines = wrap(words.split_whitespace(), width.saturating_sub(left + 4));
        format!("  {name:left$}  {}\n", lines.join(&gap))
    };
    rows.iter().map(row).collect()
}

/// A text of paragraphs, each wrapped. One that has a line that begins with a space stays as it is.
fn flow(text: &str, width: usize) -> String {
    let paragraph = |text: &str| {
        if text.lines().any(|line| line.starts_with(' ')) {
            format!("{}\n", text.trim_end())
        } else {
            wrap(text.split_whitespace(), width).join("\n") + "\n"
        }
    };
    text.trim_end().split("\n\n").map(paragraph).collect::<Vec<_>>().join("\n")
}

/// Lines of at most so many columns. A word that is longer has a line of its own.
fn wrap<'a>(words: impl Iterator<Item = &'a str>, width: usize) -> Vec<String> {
    let mut lines = vec![String::new()];
    for word in words {
        match lines.last_mut() {
            Some(line) if line.is_empty() => line.push_str(word),
            Some(line) if line.chars().count() + 1 + word.chars().count() <= width => {
                line.push(' ');
                line.push_str(word);
            }
            _ => lines.push(word.to_string()),
        }
    }
    lines
}

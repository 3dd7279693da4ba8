//! Verbs, and the words of a command line read by what a verb knows.

use crate::{Console, Status, Trouble, VERBS};
use calls::text::nearest;
use std::collections::BTreeMap;

/// Something that the tool can do.
pub struct Verb {
    /// The first word of the command line.
    pub name: &'static str,
    /// The words that follow it, as help shows them.
    pub words: &'static str,
    /// How many words at most.
    pub most_words: usize,
    /// What it does, in a line.
    pub about: &'static str,
    /// More of it, for its own help: lines of at most 100 columns.
    pub more: &'static str,
    /// The choices that it has.
    pub choices: &'static [&'static [Choice]],
    /// Command lines to try, a line each.
    pub example: &'static str,
    /// Does it.
    pub run: fn(&Options, &mut Console) -> Result<Status, Trouble>,
}

/// A word that begins with `--`.
pub struct Choice {
    /// Its name, without the two lines.
    pub name: &'static str,
    /// What follows it, as help shows it; empty if nothing does.
    pub value: &'static str,
    /// What it does.
    pub about: &'static str,
}

/// The choices of every verb that reads a paper.
pub const PAPER: &[Choice] = &[
    Choice { name: "tape", value: "", about: "the paper is a tape, whatever its first byte" },
    Choice { name: "text", value: "", about: "the paper is a text, whatever its first byte" },
    Choice { name: "wide", value: "", about: "a tape may have kinds above 6 (docs/TAPE.md)" },
];

/// The choices of every verb that starts a board.
pub const BOARD: &[Choice] = &[
    Choice { name: "frames", value: "N", about: "the board's frames (16), 8192 at most" },
    Choice { name: "from", value: "ADDR", about: "where its memory begins (0x100000)" },
    Choice { name: "levels", value: "4|5", about: "its levels of page tables (4)" },
];

/// The choice of every verb that makes one file.
pub const OUT: &[Choice] = &[Choice {
    name: "out",
    value: "FILE",
    about: "writes FILE, whole or not at all (standard output); -o FILE does the same",
}];

/// Words of one letter, and the choices that they stand for.
const SHORT: &[(&str, &str)] = &[("-o", "out")];

/// A command line as read.
pub struct Options {
    verb: &'static Verb,
    words: Vec<String>,
    given: BTreeMap<&'static str, String>,
}

impl Verb {
    /// All its choices.
    pub fn all_choices(&self) -> impl Iterator<Item = &'static Choice> {
        self.choices.iter().flat_map(|some| some.iter())
    }

    /// The verb of a name.
    pub fn of(name: &str) -> Result<&'static Verb, Trouble> {
        let near = || nearest(name, VERBS.iter().map(|verb| verb.name));
        VERBS.iter().copied().find(|verb| verb.name == name).ok_or_else(|| match near() {
            Some(near) => usage(&format!("there is no verb `{name}`; `{near}` is one")),
            None => usage(&format!("there is no verb `{name}`")),
        })
    }

    /// Its choice of a name.
    fn choice(&self, name: &str) -> Result<&'static Choice, Trouble> {
        let near = || nearest(name, self.all_choices().map(|choice| choice.name));
        self.all_choices().find(|choice| choice.name == name).ok_or_else(|| {
            let known = near().map_or(String::new(), |near| format!("; it has --{near}"));
            usage(&format!("`paper {}` has no --{name}{known}", self.name))
        })
    }
}

impl Options {
    /// Reads the words of a command line. Behind a `--` no word is a choice.
    pub fn read(words: &[String]) -> Result<Options, Trouble> {
        let (name, rest) = words.split_first().ok_or(Trouble::NoVerb)?;
        let mut options =
            Options { verb: Verb::of(name)?, words: Vec::new(), given: BTreeMap::new() };
        let mut rest = rest.iter();
        while let Some(word) = rest.next() {
            if word == "--" {
                options.words.extend(rest.by_ref().cloned());
            } else {
                options.take(word, &mut rest)?;
            }
        }
        let verb = options.verb;
        match options.words.get(verb.most_words) {
            Some(word) => {
                Err(usage(&format!("`{word}` is a word too many for `paper {}`", verb.name)))
            }
            None => Ok(options),
        }
    }

    /// A word or a choice.
    fn take<'a>(
        &mut self,
        word: &str,
        rest: &mut impl Iterator<Item = &'a String>,
    ) -> Result<(), Trouble> {
        let short = SHORT.iter().find(|(short, _)| *short == word).map(|(_, name)| *name);
        match word.strip_prefix("--").or(short) {
            Some(name) => self.choose(name, rest),
            None if word.starts_with('-') && word != "-" => Err(usage(&format!(
                "`paper {}` has no {word}; a file of that name goes behind --",
                self.verb.name
            ))),
            None => {
                self.words.push(word.to_string());
                Ok(())
            }
        }
    }

    /// A choice, with what follows it, or as `--name=value`.
    fn choose<'a>(
        &mut self,
        name: &str,
        rest: &mut impl Iterator<Item = &'a String>,
    ) -> Result<(), Trouble> {
        let (name, value) = match name.split_once('=') {
            Some((name, value)) => (name, Some(value.to_string())),
            None => (name, None),
        };
        let choice = self.verb.choice(name)?;
        let value = match (choice.value, value) {
            ("", None) => String::new(),
            ("", Some(_)) => return Err(usage(&format!("--{name} takes no value"))),
            (_, Some(value)) => value,
            (what, None) => {
                rest.next().cloned().ok_or_else(|| usage(&format!("--{name} needs {what}")))?
            }
        };
        match self.given.insert(choice.name, value) {
            Some(_) => Err(usage(&format!("--{name} stands twice"))),
            None => Ok(()),
        }
    }

    /// Does what the verb does.
    pub fn run(&self, console: &mut Console) -> Result<Status, Trouble> {
        (self.verb.run)(self, console)
    }

    /// The word at a place behind the verb.
    pub fn word(&self, at: usize) -> Option<&str> {
        self.words.get(at).map(String::as_str)
    }

    /// .. which must be there; `what` says what it is.
    pub fn needed(&self, at: usize, what: &str) -> Result<&str, Trouble> {
        let name = self.verb.name;
        self.word(at).ok_or_else(|| usage(&format!("`paper {name}` needs {what}")))
    }

    /// Whether a choice was made.
    pub fn has(&self, name: &str) -> bool {
        self.given.contains_key(name)
    }

    /// What follows a choice.
    pub fn value(&self, name: &str) -> Option<&str> {
        self.given.get(name).map(String::as_str)
    }

    /// .. as a number, in decimal or after 0x.
    pub fn number(&self, name: &str) -> Result<Option<u64>, Trouble> {
        self.value(name).map(|text| number(text, &format!("--{name}"))).transpose()
    }
}

/// A number of the command line, in decimal or after 0x; `what` says whose.
pub fn number(text: &str, what: &str) -> Result<u64, Trouble> {
    calls::text::number(text).ok_or_else(|| {
        usage(&format!(
            "{what} needs a number below 2^64, decimal or after 0x, and `{text}` is none"
        ))
    })
}

/// A wrong command line.
pub fn usage(why: &str) -> Trouble {
    Trouble::Usage(why.to_string())
}

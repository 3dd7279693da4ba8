//! `paper show`: the board as a candidate writes it down.

mod address;
mod change;
mod data;
mod html;
mod json;
mod label;
mod model;
mod row;
mod section;
mod step;
mod svg;
mod text;
mod tree;
mod value;
mod view;
mod xml;

use crate::options::{usage, Choice, Options, Verb, BOARD, OUT, PAPER};
use crate::{output, source, Console, Progress, Source, Status, Trouble};
use calls::tape;
use gadulnos::Board;
use html::Page;
use model::Model;
use section::sections;
use std::io::{self, Write};
use step::{Step, Steps};
use svg::Picture;
use text::Sheet;

/// Shows a board.
pub const SHOW: Verb = Verb {
    name: "show",
    words: "[PAPER]",
    most_words: 1,
    about: "shows the board: as text, JSON, a picture of the tables, or a page to step through",
    more: MORE,
    choices: &[CHOICES, OUT, PAPER, BOARD],
    example: "paper show examples/release.txt --after each\npaper show examples/release.txt --as html --out page.html",
    run,
};

const CHOICES: &[Choice] = &[
    Choice {
        name: "after",
        value: "each|end|N",
        about: "after each call, at the end, or after call N, 0 the start (end)",
    },
    Choice { name: "as", value: "text|json|svg|html", about: "the form (text)" },
];

/// How many bytes of what stands behind the calls of a malformed tape are shown.
const MOST_BYTES: usize = 16;

const MORE: &str = "\
Shown are the frames with what each holds, both region lists, next_addr, the copy-on-write pages
and the words of the tables that are not 0, by level. A page's words are no table: of them only
their number is told. Rows that are alike stand in one, with their number in brackets.
Walks ignore what stands above the top index: an address is told as a region or a marked page
has it, else with its top bit repeated. Where several entries lead to one table, what lies below
it has several addresses, of which those that a region has are told first.

text  With --after each: the fresh board, then of each call what changed (+ added, ~ changed,
      - gone), and at the end the whole board.
json  One object, or with --after each an array with one step a line. Numbers of 64 bits are
      strings such as \"0x1000\", since JavaScript loses bits above 2^53. The keys:
        call, calls, text, line, number, value, words, malformed_at, of the start mostly null
        found           null or freed, already_free, not_here
        walk            null or a list of level, table, index, word, verdict
        board           levels, first_frame, total_frames, allocated_frames, root, next_addr, and
        frames          a list of frame, marked, words_not_0, and holds: a list of kind, and of a
                        table level, path, of a page or part_of_large_page addr, flags;
                        more: true where it is reached at further addresses, else left out
        kernel_regions  a list of start, size, used
        user_regions    a list of start, size, prot, flags, prot_words, flags_words
        marked_pages    a list of addresses
        tables          a list of frame, level, path, and entries: a list of index, word, flags,
                        and leads_to: null or kind (table, page, large_page or outside), frame,
                        addr, user_reads, user_writes; where it has further addresses also
                        others: a list of these three, and more: true if that lacks some
svg   The tree of tables after one call, to print.
html  A page without anything beside it, for all calls: arrow keys, j and k, Home and End step,
      and #N behind its name begins at call N. --after says which call is shown at first.

Where a tape is malformed, the calls before that place are shown, and the status is 2.";

/// The form of what is shown.
#[derive(Clone, Copy, PartialEq, Eq)]
enum Form {
    Text,
    Json,
    Svg,
    Html,
}

/// The forms by their names.
const FORMS: [(&str, Form); 4] =
    [("text", Form::Text), ("json", Form::Json), ("svg", Form::Svg), ("html", Form::Html)];

/// After which calls a board is shown.
#[derive(Clone, Copy, PartialEq, Eq)]
enum After {
    Each,
    End,
    Call(u64),
}

fn run(options: &Options, console: &mut Console) -> Result<Status, Trouble> {
    let (form, after) = (form(options)?, after(options)?);
    if (form, after) == (Form::Svg, After::Each) {
        return Err(usage("--as svg shows one board: --after end, or the number of a call"));
    }
    let source = Source::read(options.word(0), options, console)?;
    let number = number(after, source.paper.calls.len())?;
    let (steps, start) = Steps::start(&source.paper)?;
    let mut show = Show { source: &source, steps, start };
    let page = match form {
        Form::Html => show.page(number.unwrap_or_default(), console),
        _ => String::new(),
    };
    let width = console.width;
    let mut write = |out: &mut dyn Write| match (form, number) {
        (Form::Html, _) => out.write_all(page.as_bytes()),
        (Form::Svg, _) => show.svg(number.unwrap_or_default(), out),
        (Form::Json, Some(number)) => show.json(number, out),
        (Form::Json, None) => show.json_of_each(out),
        (Form::Text, Some(number)) => show.text(number, &mut Sheet { out, width }),
        (Form::Text, None) => show.text_of_each(&mut Sheet { out, width }),
    };
    match output::name(options) {
        None => write(console.output())?,
        Some(name) => output::stream(name, write)?,
    }
    source.status(console)
}

/// What --as says.
fn form(options: &Options) -> Result<Form, Trouble> {
    let name = options.value("as").unwrap_or("text");
    let form = FORMS.iter().find(|(known, _)| *known == name);
    form.map(|(_, form)| *form)
        .ok_or_else(|| usage(&format!("--as needs text, json, svg or html, and not `{name}`")))
}

/// What --after says.
fn after(options: &Options) -> Result<After, Trouble> {
    match options.value("after") {
        None | Some("end") => Ok(After::End),
        Some("each") => Ok(After::Each),
        Some(text) => calls::text::number(text).map(After::Call).ok_or_else(|| {
            usage(&format!("--after needs each, end or a number, and not `{text}`"))
        }),
    }
}

/// The number of the call that a board is shown after, which must be there; nothing for each.
fn number(after: After, last: usize) -> Result<Option<usize>, Trouble> {
    let number = match after {
        After::Each => return Ok(None),
        After::End => return Ok(Some(last)),
        After::Call(number) => number,
    };
    match usize::try_from(number) {
        Ok(number) if number <= last => Ok(Some(number)),
        _ => Err(usage(&format!("there is no call {number} to show: the paper has {last}"))),
    }
}

/// A paper being shown.
struct Show<'a> {
    source: &'a Source,
    steps: Steps<'a>,
    /// The start, which no call led to.
    start: Step,
}

impl Show<'_> {
    /// Plays up to a call: the step that it is.
    fn play(&mut self, number: usize) -> Step {
        let of = self.start.of;
        let last = self.steps.by_ref().take(number).last();
        last.unwrap_or(Step { number: 0, of, made: None })
    }

    /// The board as it stands.
    fn model(&self) -> Model {
        Model::of(self.steps.board())
    }

    fn text(&mut self, number: usize, sheet: &mut Sheet) -> io::Result<()> {
        let step = self.play(number);
        sheet.step(&step)?;
        sheet.board(&sections(&self.model()))?;
        self.text_of_rest(sheet)
    }

    fn text_of_each(&mut self, sheet: &mut Sheet) -> io::Result<()> {
        let mut before = sections(&self.model());
        sheet.step(&self.start)?;
        sheet.board(&before)?;
        while let Some(step) = self.steps.next() {
            let now = sections(&self.model());
            writeln!(sheet.out)?;
            sheet.step(&step)?;
            sheet.changes(&before, &now)?;
            before = now;
        }
        if self.start.of > 0 {
            writeln!(sheet.out, "\nthe board at the end")?;
            sheet.board(&before)?;
        }
        self.text_of_rest(sheet)
    }

    fn text_of_rest(&self, sheet: &mut Sheet) -> io::Result<()> {
        match self.rest() {
            None => Ok(()),
            Some(rest) => writeln!(sheet.out, "\n{rest}"),
        }
    }

    /// Where the tape is malformed.
    fn malformed(&self) -> Option<u64> {
        let paper = &self.source.paper;
        (!paper.rest.is_empty()).then(|| source::offset(paper))
    }

    /// What stands there, in words.
    fn rest(&self) -> Option<String> {
        let (at, rest) = (self.malformed()?, &self.source.paper.rest);
        let some = &rest[..rest.len().min(MOST_BYTES)];
        let dots = if some.len() < rest.len() { "..." } else { "" };
        let bytes = tape::hex(some);
        Some(format!("the tape is malformed at byte {at}, where no call begins: {bytes}{dots}"))
    }

    fn json(&mut self, number: usize, out: &mut dyn Write) -> io::Result<()> {
        let step = self.play(number);
        writeln!(out, "{}", json::step(&step, &self.model(), self.malformed()))
    }

    fn json_of_each(&mut self, out: &mut dyn Write) -> io::Result<()> {
        let malformed = self.malformed();
        write!(out, "[\n{}", json::step(&self.start, &self.model(), malformed))?;
        while let Some(step) = self.steps.next() {
            write!(out, ",\n{}", json::step(&step, &self.model(), malformed))?;
        }
        writeln!(out, "\n]")
    }

    fn svg(&mut self, number: usize, out: &mut dyn Write) -> io::Result<()> {
        let step = self.play(number);
        let title = match step.number {
            0 => "The page tables of the fresh board".to_string(),
            _ => format!("The page tables after {}", step.heading()),
        };
        let picture = Picture { title: Some(&title), model: &self.model() };
        write!(out, "<?xml version=\"1.0\" encoding=\"UTF-8\"?>\n{picture}")
    }

    /// The page of all steps, which shows one of them at first.
    fn page(&mut self, first: usize, console: &mut Console) -> String {
        let mut page = Page::new(&self.source.name, first, self.rest());
        let mut progress = Progress::new(console, "call", self.start.of as u64);
        page.add(&self.start, self.steps.board());
        while let Some(step) = self.steps.next() {
            progress.tick(console, step.number as u64);
            page.add(&step, self.steps.board());
        }
        progress.end(console);
        page.finish()
    }
}

/// A board as text, in lines of at most so many columns.
pub fn board_text(board: &Board, width: usize) -> String {
    let mut out = Vec::new();
    let written = Sheet { out: &mut out, width }.board(&sections(&Model::of(board)));
    written.map_or(String::new(), |()| String::from_utf8_lossy(&out).into_owned())
}

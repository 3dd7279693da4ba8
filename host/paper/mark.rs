//! `paper mark`: a candidate's answer lines against the key.

mod align;
mod answers;
mod wanted;

use crate::key::KeyLine;
use crate::options::{usage, Choice, Options, Verb, BOARD, PAPER};
use crate::words::counted;
use crate::{explain, source, Console, Source, Status, Trouble};
use align::{Band, Step};
use answers::Written;
use calls::text;
use calls::Call;
use gadulnos::raw::Told;
use std::iter::Peekable;
use wanted::{met, release, Wanted, WholeKey, RELEASES};

/// Marks answers.
pub const MARK: Verb = Verb {
    name: "mark",
    words: "PAPER [ANSWERS]",
    most_words: 2,
    about: "compares a candidate's answer lines with the key",
    more: "\
The answers are a key's lines, in a file or from standard input. Empty lines, comments behind #,
more spaces, capital letters, 0x before a value, missing zeros and a colon behind `frames` do not
matter, and a value of 0 may be left out; all else must be as in the key. Lines stand for the calls
for which they leave the fewest missing, surplus or wrong: what is wrong in one place does not spoil
the others. A line that cannot be read is a wrong answer to its call, or surplus where the lines
below it are right then. Of very long sheets only shifts by few lines are looked for.

The key.txt of `paper seats` marks every seat with --key. The releases in it have no order, so that
only how many lines are a vfree's and how many a munmap's is held to it; by the seat's own paper,
as in `paper mark room/seat-0007.txt answers.txt`, each line is held to the seat's order.

Each line that differs is printed, then how many of the key's lines are right and the first call at
which they part. The status is 0 if all are right and none is surplus, else 3.",
    choices: &[
        &[
            Choice {
                name: "key",
                value: "",
                about: "PAPER is no paper but a key: lines as `paper key` prints them, or key.txt",
            },
            Choice { name: "explain", value: "", about: "also says why the right line is so" },
        ],
        PAPER,
        BOARD,
    ],
    example: "paper mark exam.txt answers.txt\npaper mark --key room/key.txt answers.txt",
    run,
};

fn run(options: &Options, console: &mut Console) -> Result<Status, Trouble> {
    let word = options.needed(0, "a paper, or a key behind --key")?;
    if word == "-" && options.word(1).unwrap_or("-") == "-" {
        return Err(usage("paper and answers cannot both come from standard input"));
    }
    let key = if options.has("key") {
        let (name, bytes) = source::bytes(Some(word), console)?;
        WholeKey::read(&name, &bytes)?
    } else {
        WholeKey::of(&Source::read(Some(word), options, console)?)?
    };
    let (_, sheet) = source::bytes(options.word(1), console)?;
    Marking::new(&key, options.has("explain")).run(&sheet, console)
}

/// The most surplus lines that are printed.
const MOST_SURPLUS: usize = 20;

/// What was found so far.
struct Marking<'a> {
    key: &'a WholeKey,
    explains: bool,
    /// How many of the key's lines were gone through, and how many of those are right.
    lines: usize,
    right: usize,
    /// Lines of the sheet that belong to no line of the key.
    surplus: usize,
    /// Where key and sheet part, in words: the first of the key's lines that is not right.
    parted: Option<String>,
}

impl<'a> Marking<'a> {
    fn new(key: &'a WholeKey, explains: bool) -> Marking<'a> {
        Marking { key, explains, lines: 0, right: 0, surplus: 0, parted: None }
    }

    /// Goes through key and sheet together: the calls and releases, then the lines at the end.
    fn run(mut self, sheet: &[u8], console: &mut Console) -> Result<Status, Trouble> {
        let is_call = |line: &Written| line.rank() == 0;
        let (calls, body, ends) = self.key.parts();
        let written = answers::lines(sheet).filter(is_call);
        let back = answers::from_end(sheet).filter(is_call);
        let steps = steps(body, written.clone(), back);
        self.calls(calls, written, steps, console)?;
        self.ends(ends, answers::lines(sheet).filter(|line| !is_call(line)), console)?;
        self.end(console)
    }

    /// Goes through the calls by these steps, line by line where there are no more of them. What is left is releases.
    fn calls<'w>(
        &mut self,
        key: &[Wanted],
        mut written: impl Iterator<Item = Written<'w>> + Clone,
        steps: Vec<Step>,
        console: &mut Console,
    ) -> Result<(), Trouble> {
        let mut steps = steps.into_iter();
        for wanted in key {
            let mut step = steps.next();
            while step == Some(Step::Surplus) {
                written.next().map_or(Ok(()), |line| self.surplus(&line, console))?;
                step = steps.next();
            }
            let line = if step == Some(Step::Missing) { None } else { written.next() };
            self.compare(wanted, line, console)?;
        }
        self.releases(written, console)
    }

    /// Goes through the releases of all seats, which may have any order: each line is right as long as the key has one
    /// more of its kind. Others take the place of releases that are missing, or are surplus.
    fn releases<'w>(
        &mut self,
        written: impl Iterator<Item = Written<'w>> + Clone,
        console: &mut Console,
    ) -> Result<(), Trouble> {
        let wanted = self.key.releases;
        let mut found = [0; 2];
        for kind in written.clone().filter_map(|line| release(line.says)) {
            found[kind] += 1;
        }
        let mut right = [wanted[0].min(found[0]), wanted[1].min(found[1])];
        let mut missing = wanted[0] + wanted[1] - right[0] - right[1];
        self.lines += wanted[0] + wanted[1];
        self.right += right[0] + right[1];
        if missing > 0 {
            self.parted.get_or_insert("every call before the releases is right".to_string());
        }
        for line in written {
            match release(line.says).and_then(|kind| right.get_mut(kind)) {
                Some(left @ 1..) => *left -= 1,
                _ if missing > 0 => {
                    missing -= 1;
                    no_release(&line, wanted, found, console)?;
                }
                _ => self.surplus(&line, console)?,
            }
        }
        if missing > 0 {
            writeln!(console.output(), "missing, {missing} of the releases: nothing is written")?;
        }
        miscounted(wanted, found, console)
    }

    /// Goes through the lines at the end. Those of the sheet that come before one are surplus; one that comes behind it
    /// waits.
    fn ends<'w>(
        &mut self,
        key: &[Wanted],
        written: impl Iterator<Item = Written<'w>>,
        console: &mut Console,
    ) -> Result<(), Trouble> {
        let mut written = written.peekable();
        for wanted in key {
            let line = self.of_rank(wanted, &mut written, console)?;
            self.compare(wanted, line, console)?;
        }
        written.try_for_each(|line| self.surplus(&line, console))
    }

    /// The next line of the sheet, if it is one for this line of the key.
    fn of_rank<'w>(
        &mut self,
        wanted: &Wanted,
        written: &mut Peekable<impl Iterator<Item = Written<'w>>>,
        console: &mut Console,
    ) -> Result<Option<Written<'w>>, Trouble> {
        let rank = match wanted {
            Wanted::Line(line, _) => line.rank(),
            Wanted::Release => 0,
        };
        while let Some(line) = written.next_if(|line| line.rank() < rank) {
            self.surplus(&line, console)?;
        }
        Ok(written.next_if(|line| line.rank() == rank))
    }

    /// A line of the key beside what is written for it.
    fn compare(
        &mut self,
        wanted: &Wanted,
        line: Option<Written>,
        console: &mut Console,
    ) -> Result<(), Trouble> {
        self.lines += 1;
        match (wanted, &line) {
            (wanted, Some(line)) if wanted.is(line.says) => self.right += 1,
            (Wanted::Line(key, call), _) => self.differs(key, call, line, console)?,
            (Wanted::Release, _) => {}
        }
        Ok(())
    }

    /// A line of the key that is missing or that something else is written for.
    fn differs(
        &mut self,
        key: &KeyLine,
        call: &Option<(Call, Told)>,
        line: Option<Written>,
        console: &mut Console,
    ) -> Result<(), Trouble> {
        let name = self.name(key, call);
        let written = match &line {
            Some(line) if line.says.is_some() => {
                format!("line {}, {name}: written `{}`", line.number, line.shown())
            }
            Some(line) => {
                format!("line {}, {name}: `{}` is no line of a key", line.number, line.shown())
            }
            None => format!("missing, {name}: nothing is written"),
        };
        let why = match call {
            Some((call, told)) if self.explains => format!(": {}", explain::told(call, told)),
            _ => String::new(),
        };
        writeln!(console.output(), "{written}, right is `{key}`{why}")?;
        self.parted.get_or_insert_with(|| match key {
            KeyLine::Call { .. } => format!("the first call at which they part is {name}"),
            _ => format!("every call is right, {name} is not"),
        });
        Ok(())
    }

    /// A line of the key by its call, if it has one.
    fn name(&self, key: &KeyLine, call: &Option<(Call, Told)>) -> String {
        match (key, call) {
            (_, Some((call, _))) => format!("call {}: {}", self.lines, text::call(call)),
            (KeyLine::Call { .. }, None) => format!("call {}", self.lines),
            (KeyLine::Tape(_), _) => "the line of the tape".to_string(),
            (KeyLine::Frames(_), _) => "the line of the frames".to_string(),
        }
    }

    /// A line that the key does not have.
    fn surplus(&mut self, line: &Written, console: &mut Console) -> Result<(), Trouble> {
        self.surplus += 1;
        if self.surplus <= MOST_SURPLUS {
            let (number, shown) = (line.number, line.shown());
            writeln!(console.output(), "line {number}: `{shown}` is surplus")?;
        }
        Ok(())
    }

    /// The last line.
    fn end(self, console: &mut Console) -> Result<Status, Trouble> {
        let Marking { key, right, surplus, parted, .. } = self;
        let more = surplus.saturating_sub(MOST_SURPLUS);
        if more > 0 {
            writeln!(console.output(), "and {more} more surplus lines")?;
        }
        let lines = key.lines.len();
        let status = match parted {
            None if surplus == 0 => {
                writeln!(console.output(), "all {lines} lines right")?;
                Status::Done
            }
            parted => {
                let end = parted.unwrap_or_else(|| format!("surplus lines: {surplus}"));
                writeln!(console.output(), "{right} of {lines} lines right; {end}")?;
                Status::Differs
            }
        };
        Ok(status)
    }
}

/// How the lines of a sheet, which are also given from the last one back, stand for those of the key.
///
/// What agrees at the front and at the end goes straight. Of what lies between, the way with the fewest edits is looked
/// for as far as [`Band`] goes; where it has none, the sheet is gone through line by line, for which no step is told.
fn steps<'w>(
    key: &[Wanted],
    written: impl Iterator<Item = Written<'w>> + Clone,
    from_end: impl Iterator<Item = Written<'w>>,
) -> Vec<Step> {
    let agree = |(line, wanted): &(Written, &Wanted)| wanted.is(line.says);
    let front = written.clone().zip(key).take_while(agree).count();
    let (key, count) = (key.get(front..).unwrap_or_default(), written.clone().count() - front);
    let back = from_end.take(count).zip(key.iter().rev()).take_while(agree).count();
    let (key, count) = (key.get(..key.len() - back).unwrap_or_default(), count - back);
    let mut steps = vec![Step::Both; front];
    if let Some(band) = Band::of(key.len(), count) {
        let says: Vec<Option<KeyLine>> =
            written.skip(front).take(count).map(|line| line.says).collect();
        steps.extend(band.steps(key, &says));
    }
    steps
}

/// A line in the place of a release that is missing.
fn no_release(
    line: &Written,
    wanted: [usize; 2],
    found: [usize; 2],
    console: &mut Console,
) -> Result<(), Trouble> {
    let missing = RELEASES.iter().zip(wanted.iter().zip(found));
    let missing = missing.filter(|(_, (wanted, found))| *wanted > found);
    let right: Vec<String> = missing.map(|((_, call), _)| format!("`{}`", met(call))).collect();
    let (number, shown, right) = (line.number, line.shown(), right.join(" or "));
    let written = match line.says {
        Some(_) => format!("written `{shown}`"),
        None => format!("`{shown}` is no line of a key"),
    };
    writeln!(console.output(), "line {number}, a release: {written}, right is {right}")?;
    Ok(())
}

/// The kinds of which not as many releases are written as the key has.
fn miscounted(wanted: [usize; 2], found: [usize; 2], console: &mut Console) -> Result<(), Trouble> {
    for ((name, _), (wanted, found)) in RELEASES.iter().zip(wanted.iter().zip(found)) {
        if *wanted != found {
            let found = counted(found as u64, name);
            writeln!(console.output(), "{found} where the key has {wanted}")?;
        }
    }
    Ok(())
}

//! A step as it stands in the page before its script, or without one.

use super::change::{self, changes, Change, Mark};
use super::section::Section;
use super::step::Step;
use super::xml::escaped;
use std::fmt::{self, Display, Formatter};

/// In a section of more rows like ones are folded.
pub const MOST_ROWS: usize = 64;

/// The call of a step and what it told.
pub struct Answer<'a>(pub &'a Step);

impl Display for Answer<'_> {
    fn fmt(&self, f: &mut Formatter) -> fmt::Result {
        let made = self.0.made.as_ref();
        let of = |told: Option<String>| told.unwrap_or_default();
        let text = of(made.map(|made| made.text()));
        let (line, words) = (of(made.map(|made| made.line())), of(made.map(|made| made.words())));
        let refused = if made.map_or(false, |made| made.is_refused()) { "refused" } else { "met" };
        write!(
            f,
            "<p id=\"place\">{}</p>\n<h2 id=\"text\">{}</h2>\n\
             <p id=\"words\" class=\"{refused}\">{}</p>\n<p id=\"line\">{}</p>\n<ol id=\"walk\">",
            escaped(&self.0.place()),
            escaped(&text),
            escaped(&words),
            escaped(&line),
        )?;
        let walk = made.and_then(|made| made.walk.as_ref());
        let mut steps = walk.iter().flat_map(|walk| walk.steps.iter());
        steps.try_for_each(|step| write!(f, "<li>{}</li>", escaped(&step.to_string())))?;
        writeln!(f, "</ol>")
    }
}

/// A section of a board, and the same one of the board before.
pub struct Changed<'a> {
    /// The board before.
    pub before: &'a Section,
    /// The board.
    pub now: &'a Section,
}

impl Display for Changed<'_> {
    fn fmt(&self, f: &mut Formatter) -> fmt::Result {
        let kind = self.now.kind;
        let (name, title, none) = (kind.name, kind.title, kind.none);
        let changes = changes(self.before, self.now);
        let hidden = " hidden=\"hidden\"";
        let (no_rows, no_words) = if changes.is_empty() { (hidden, "") } else { ("", hidden) };
        writeln!(f, "<section id=\"{name}\">\n<h3>{title}</h3>\n<table{no_rows}>")?;
        if kind.columns.iter().any(|column| !column.is_empty()) {
            write!(f, "<thead><tr><th></th>")?;
            kind.columns.iter().try_for_each(|column| write!(f, "<th>{column}</th>"))?;
            writeln!(f, "</tr></thead>")?;
        }
        writeln!(f, "<tbody>")?;
        let least = if changes.len() > MOST_ROWS { 2 } else { usize::MAX };
        for run in change::runs(&changes, least) {
            write_run(f, run)?;
        }
        writeln!(f, "</tbody>\n</table>\n<p class=\"none\"{no_words}>{none}</p>\n</section>")
    }
}

/// A run of rows in one.
fn write_run(f: &mut Formatter, run: &[Change]) -> fmt::Result {
    let first = match run.first() {
        Some(first) => first,
        None => return Ok(()),
    };
    let (class, mark) = match first.mark {
        Mark::Kept => ("kept", ""),
        Mark::Added => ("added", "+"),
        Mark::Changed => ("changed", "~"),
        Mark::Gone => ("gone", "-"),
    };
    let count = run.len() as u64;
    write!(f, "<tr class=\"{class}\" data-count=\"{count}\"><td>{mark}</td>")?;
    for (at, cell) in first.row.0.iter().enumerate() {
        let was = first.was.and_then(|was| was.0.get(at)).filter(|was| *was != cell);
        let text = cell.run(count);
        match was {
            None => write!(f, "<td>{}</td>", escaped(&text))?,
            Some(was) => {
                let (text, was) = (escaped(&text), was.run(count));
                write!(f, "<td><ins>{text}</ins> <del>{}</del></td>", escaped(&was))?;
            }
        }
    }
    writeln!(f, "</tr>")
}

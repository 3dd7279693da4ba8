//! The board as text.

use super::change::{self, changes, kept, Change, Mark};
use super::section::{Kind, Section};
use super::step::Step;
use std::io::{self, Write};

/// How many like rows are folded into one.
const LEAST_RUN: usize = 3;

/// How far rows stand in, which leaves room for a mark, and how far a line that goes on does.
const INDENT: usize = 2;
const HANGING: usize = 6;

/// The least width of a last column. Rows whose other columns leave less are not aligned.
const LEAST_LAST: usize = 20;

/// A stream of lines of a width.
pub struct Sheet<'a> {
    /// Where the lines go.
    pub out: &'a mut dyn Write,
    /// How many columns they may have.
    pub width: usize,
}

impl Sheet<'_> {
    /// A step's call and what it told.
    pub fn step(&mut self, step: &Step) -> io::Result<()> {
        self.wrapped("", &step.heading())?;
        let made = match &step.made {
            Some(made) => made,
            None => return Ok(()),
        };
        self.wrapped("  key  ", &made.line())?;
        self.wrapped("  ", &made.words())?;
        match &made.walk {
            Some(walk) => {
                walk.steps.iter().try_for_each(|step| self.wrapped("    ", &step.to_string()))
            }
            None => Ok(()),
        }
    }

    /// A whole board.
    pub fn board(&mut self, sections: &[Section]) -> io::Result<()> {
        sections.iter().try_for_each(|section| {
            writeln!(self.out)?;
            self.section(section.kind, &kept(&section.rows), true)
        })
    }

    /// What changed from one board to the next.
    pub fn changes(&mut self, old: &[Section], new: &[Section]) -> io::Result<()> {
        let mut none = true;
        for (old, new) in old.iter().zip(new) {
            let mut changes = changes(old, new);
            changes.retain(|change| change.mark != Mark::Kept);
            if !changes.is_empty() {
                none = false;
                self.section(new.kind, &changes, false)?;
            }
        }
        if none {
            writeln!(self.out, "  nothing changed")
        } else {
            Ok(())
        }
    }

    /// Rows under their heading, and under those of their columns if these are wanted.
    fn section(&mut self, kind: &Kind, changes: &[Change], columns: bool) -> io::Result<()> {
        if changes.is_empty() {
            return writeln!(self.out, "{}: {}", kind.title, kind.none);
        }
        writeln!(self.out, "{}", kind.title)?;
        let runs = change::runs(changes, LEAST_RUN);
        let mut rows: Vec<Vec<String>> = runs.iter().filter_map(|run| cells(run)).collect();
        if columns && kind.columns.iter().any(|column| !column.is_empty()) {
            let head = [&[" "], kind.columns].concat();
            rows.insert(0, head.into_iter().map(str::to_string).collect());
        }
        self.rows(&rows)
    }

    /// Rows in columns, the last of which may go on in further lines. The first column is the mark.
    fn rows(&mut self, rows: &[Vec<String>]) -> io::Result<()> {
        let most = rows.iter().map(Vec::len).max().unwrap_or_default();
        let width = |column| rows.iter().filter_map(|row| row.get(column)).map(String::len).max();
        let widths: Vec<usize> = (1..most).map(|at| width(at).unwrap_or_default()).collect();
        let (last, others) = widths.split_last().unwrap_or((&0, &[]));
        let before = INDENT + others.iter().map(|width| width + INDENT).sum::<usize>();
        let aligned = before + LEAST_LAST.min(*last) <= self.width;
        for row in rows {
            let (mark, cells) = row.split_first().map_or(("", &[][..]), |(m, c)| (m.as_str(), c));
            let (last, cells) = cells.split_last().map_or(("", cells), |(l, c)| (l.as_str(), c));
            let mut first = format!("{mark} ");
            for (cell, width) in cells.iter().zip(others) {
                let width = if aligned { *width } else { 0 };
                first.push_str(&format!("{cell:width$}  "));
            }
            match aligned {
                true => self.wrapped(&first, last)?,
                false => self.hanging(&first, last, HANGING)?,
            }
        }
        Ok(())
    }

    /// Words behind a beginning, lines that go on standing below the first word.
    fn wrapped(&mut self, first: &str, words: &str) -> io::Result<()> {
        self.hanging(first, words, first.len())
    }

    /// Words behind a beginning, lines that go on standing so far in.
    fn hanging(&mut self, first: &str, words: &str, indent: usize) -> io::Result<()> {
        let mut line = first.to_string();
        let mut empty = true;
        for word in words.split_whitespace() {
            if !empty && line.len() + 1 + word.len() > self.width {
                writeln!(self.out, "{}", line.trim_end())?;
                line = " ".repeat(indent);
                empty = true;
            }
            line.push_str(if empty { "" } else { " " });
            line.push_str(word);
            empty = false;
        }
        writeln!(self.out, "{}", line.trim_end())
    }
}

/// The mark and the cells of a run of rows.
fn cells(run: &[Change]) -> Option<Vec<String>> {
    let first = run.first()?;
    let count = run.len() as u64;
    let mut cells = vec![match first.mark {
        Mark::Kept => " ".to_string(),
        Mark::Added => "+".to_string(),
        Mark::Changed => "~".to_string(),
        Mark::Gone => "-".to_string(),
    }];
    for (at, cell) in first.row.0.iter().enumerate() {
        let was = first.was.and_then(|was| was.0.get(at)).filter(|was| *was != cell);
        let was = was.map_or(String::new(), |was| format!(" (was {})", was.run(count)));
        cells.push(format!("{}{was}", cell.run(count)));
    }
    if let (Some(last), 2..) = (cells.last_mut(), count) {
        last.push_str(&format!(" ({count})"));
    }
    Some(cells)
}

//! The page of `paper show`: what it shows at first, and what its script is given to step through.

use crate::json::Json;
use crate::report::{equal, equal_at, holds};
use crate::show::words;
use crate::xml::{self, Piece};
use gadulnos::{Board, Frame};
use std::collections::BTreeMap;

/// The rows of a section, each a list of cells.
type Rows = Vec<Vec<String>>;

/// That the page's data lead from board to board, and that it shows the board at first that it should.
pub fn check(pieces: &[Piece], boards: &[Board], first: usize) -> Result<(), String> {
    let scripts = xml::texts(pieces, "script");
    let is_data = |attributes: &[(String, String)]| {
        attributes.contains(&("id".to_string(), "data".to_string()))
    };
    let data = scripts.iter().find(|(attributes, _)| is_data(attributes)).ok_or("data")?;
    let data = Json::read(&data.1)?;
    equal(data.number("first")?, first as u64)?;
    equal(data.list("steps")?.len(), boards.len())?;
    let mut sections: BTreeMap<String, Rows> = BTreeMap::new();
    for (at, (step, board)) in data.list("steps")?.iter().zip(boards).enumerate() {
        take_step(&mut sections, step).map_err(|why| format!("step {at}: {why}"))?;
        holds_board(&sections, board).map_err(|why| format!("step {at}: {why}"))?;
        if at == first {
            shows(pieces, &sections)?;
        }
    }
    for (attributes, _) in xml::texts(pieces, "a") {
        let here = attributes.iter().all(|(name, value)| name != "href" || value.starts_with('#'));
        holds(here, "no link to another place")?;
    }
    Ok(())
}

/// Makes the changes of a step, as the script does.
fn take_step(sections: &mut BTreeMap<String, Rows>, step: &Json) -> Result<(), String> {
    let changes = match step.get("changes")? {
        Json::Object(changes) => changes,
        other => return Err(format!("{other:?}")),
    };
    for (name, changes) in changes {
        let old = sections.remove(name).unwrap_or_default();
        sections.insert(name.clone(), changed(old, changes)?);
    }
    Ok(())
}

/// Rows with differences made: so many stay, so many go, so many come or change.
fn changed(old: Rows, changes: &Json) -> Result<Rows, String> {
    let changes = match changes {
        Json::List(changes) => changes,
        other => return Err(format!("{other:?}")),
    };
    let mut old = old.into_iter();
    let mut rows = Vec::new();
    for change in changes {
        match change {
            Json::Number(count @ 0..) => rows.extend(old.by_ref().take(*count as usize)),
            Json::Number(count) => pass(&mut old, count.unsigned_abs() as usize),
            Json::List(parts) => {
                let new = new_rows(parts)?;
                if parts.first() == Some(&Json::Text("~".to_string())) {
                    pass(&mut old, new.len());
                }
                rows.extend(new);
            }
            other => return Err(format!("{other:?}")),
        }
    }
    rows.extend(old);
    Ok(rows)
}

/// Leaves so many rows out.
fn pass(rows: &mut impl Iterator<Item = Vec<String>>, count: usize) {
    rows.by_ref().take(count).for_each(drop);
}

/// A mark, a count and cells: so many rows.
fn new_rows(parts: &[Json]) -> Result<Rows, String> {
    match parts {
        [Json::Text(_), Json::Number(count), cells @ ..] => (0..*count as u64)
            .map(|behind| cells.iter().map(|cell| text_of(cell, behind)).collect())
            .collect(),
        other => Err(format!("{other:?}")),
    }
}

/// A cell of the row so many behind the first: its numbers rise by their strides.
fn text_of(cell: &Json, behind: u64) -> Result<String, String> {
    match cell {
        Json::Text(text) => Ok(text.clone()),
        Json::List(parts) if matches!(parts.as_slice(), [Json::Text(_), Json::Number(_)]) => {
            risen(parts, behind)
        }
        Json::List(parts) => parts.iter().map(|part| text_of(part, behind)).collect(),
        other => Err(format!("{other:?}")),
    }
}

fn risen(parts: &[Json], behind: u64) -> Result<String, String> {
    let (number, stride) = match parts {
        [Json::Text(number), Json::Number(stride)] => (number, *stride as u64),
        other => return Err(format!("{other:?}")),
    };
    let value = match number.strip_prefix("0x") {
        Some(digits) => u64::from_str_radix(digits, 16).ok(),
        None => number.parse().ok(),
    };
    let value = value.ok_or(format!("`{number}` is no number"))?;
    let value = value.wrapping_add(behind.wrapping_mul(stride));
    Ok(if number.starts_with("0x") { format!("{value:#x}") } else { value.to_string() })
}

/// That the sections hold a board's words, regions and frames.
fn holds_board(sections: &BTreeMap<String, Rows>, board: &Board) -> Result<(), String> {
    let none = Rows::new();
    let rows = |name: &str| sections.get(name).unwrap_or(&none);
    let place = |(frame, index): (Frame, u64), word: u64| {
        vec![format!("{frame}[{index}]"), format!("{word:#x}")]
    };
    let mut shown: Vec<Vec<String>> =
        rows("tables").iter().map(|row| row.get(1..3).unwrap_or_default().to_vec()).collect();
    let mut wanted: Vec<Vec<String>> =
        words(board).into_iter().map(|(at, word)| place(at, word)).collect();
    shown.sort();
    shown.dedup();
    wanted.sort();
    equal_at("tables", shown, wanted)?;
    let starts = |rows: &Rows| -> Vec<Vec<String>> {
        rows.iter().map(|row| row.get(..2).unwrap_or_default().to_vec()).collect()
    };
    let region = |start: u64, size: u64| vec![format!("{start:#x}"), format!("{size:#x}")];
    let kernel = board.kernel_regions().into_iter().map(|it| region(it.start.get(), it.size));
    equal_at("kernel", starts(rows("kernel")), kernel.collect())?;
    let user = board.user_regions().into_iter().map(|it| region(it.start.get(), it.size));
    equal_at("user", starts(rows("user")), user.collect())?;
    let frames: Vec<&str> =
        rows("frames").iter().filter_map(|row| row.first()).map(String::as_str).collect();
    equal_at("frames", frames.len() as u64, board.total_frames())?;
    let free = rows("frames")
        .iter()
        .filter(|row| row.get(1).map_or(false, |cell| cell.starts_with("free")));
    equal_at("frames", free.count() as u64, board.free_frames())
}

/// That the rows which stand on the page before its script runs are those of the step, runs folded or not.
fn shows(pieces: &[Piece], sections: &BTreeMap<String, Rows>) -> Result<(), String> {
    for (name, rows) in sections {
        let shown = shown_rows(pieces, name);
        let count: usize = shown.iter().map(|(count, _)| *count).sum();
        equal_at(name, count, rows.len())?;
        if shown.iter().all(|(count, _)| *count == 1) {
            let cells: Rows = shown.into_iter().map(|(_, cells)| cells).collect();
            equal_at(name, &cells, rows)?;
        }
    }
    Ok(())
}

/// The rows of a section as the page has them, each with how many rows it stands for; gone ones and old cells left out.
fn shown_rows(pieces: &[Piece], section: &str) -> Vec<(usize, Vec<String>)> {
    let mut shown = Shown::default();
    for piece in pieces {
        match piece {
            Piece::Open { name, attributes } => shown.open(name, attributes, section),
            Piece::Close(name) => shown.close(name),
            Piece::Text(text) => shown.text(text),
        }
    }
    // The first cell is the mark; a space stands between a cell and what it was.
    let cells = |row: Vec<String>| {
        row.into_iter().skip(1).map(|cell| cell.trim_end().to_string()).collect()
    };
    shown.rows.into_iter().map(|(count, row)| (count, cells(row))).collect()
}

/// Rows in the midst of being gathered.
#[derive(Default)]
struct Shown {
    rows: Vec<(usize, Vec<String>)>,
    in_section: bool,
    in_cell: bool,
    in_old: bool,
    /// Whether the row is one that is gone, or the head, which has no count.
    passes: bool,
}

impl Shown {
    fn open(&mut self, name: &str, attributes: &[(String, String)], section: &str) {
        let value =
            |of: &str| attributes.iter().find(|(name, _)| name == of).map(|(_, value)| value);
        match name {
            "section" => self.in_section = value("id").map_or(false, |id| id == section),
            "del" => self.in_old = true,
            "tr" => {
                let count = value("data-count").and_then(|count| count.parse().ok());
                let is_gone = value("class").map_or(false, |class| class == "gone");
                self.passes = is_gone || count.is_none() || !self.in_section;
                self.rows.extend(count.filter(|_| !self.passes).map(|count| (count, Vec::new())));
            }
            "td" if !self.passes => {
                self.in_cell = true;
                self.rows.last_mut().into_iter().for_each(|(_, cells)| cells.push(String::new()));
            }
            _ => {}
        }
    }

    fn close(&mut self, name: &str) {
        match name {
            "section" => self.in_section = false,
            "td" => self.in_cell = false,
            "del" => self.in_old = false,
            "tr" => self.passes = true,
            _ => {}
        }
    }

    fn text(&mut self, text: &str) {
        let cell = self.rows.last_mut().and_then(|(_, cells)| cells.last_mut());
        if let Some(cell) = cell.filter(|_| self.in_cell && !self.in_old) {
            cell.push_str(text);
        }
    }
}

//! The texts of the blocks in the picture of the tables.

use super::model::{Lead, Model, TableView, WordView};
use calls::PAGE;
use gadulnos::{Entry, Frame};

/// What is to be said of a frame beside its number.
pub fn note(model: &Model, frame: Frame) -> &'static str {
    match model.frame(frame) {
        None => "",
        Some(view) if !view.marked => " (free)",
        Some(view) if view.purposes.len() > 1 => " (shared)",
        Some(_) => "",
    }
}

/// A table's name, then a line for each run of its entries, of which at most `most` are shown.
pub fn table(model: &Model, table: &TableView, runs: &[&[WordView]], most: usize) -> Vec<String> {
    let name = if table.level == model.levels { "root" } else { "table" };
    let rows: Vec<[String; 3]> = runs.iter().take(most).filter_map(|run| entries(run)).collect();
    let width = |column: usize| rows.iter().map(|row| row[column].len()).max().unwrap_or_default();
    let (indices, frames) = (width(0), width(1));
    let mut text = vec![format!("{name} {}{}", table.frame, note(model, table.frame))];
    text.extend(rows.iter().map(|[index, frame, rights]| {
        let row = format!("{index:>indices$}  {frame:<frames$}  {rights}");
        row.trim_end().to_string()
    }));
    match runs.iter().skip(most).map(|run| run.len()).sum::<usize>() {
        more @ 1.. => text.push(format!("and {more} more")),
        _ if rows.is_empty() => text.push("all words 0".to_string()),
        _ => {}
    }
    text
}

/// The indices, frames and rights of a run of entries.
fn entries(run: &[WordView]) -> Option<[String; 3]> {
    let (first, last) = (run.first()?, run.last()?);
    let indices = range(first.index, last.index);
    if first.lead.is_none() {
        let word = format!("{:#x}", first.entry.word());
        return Some([indices, word, "absent".to_string()]);
    }
    let frames = match run.len() {
        1 => first.entry.frame().to_string(),
        _ => format!("{} to {}", first.entry.frame(), last.entry.frame()),
    };
    Some([indices, frames, rights(first.entry)])
}

/// As in `3` or `3 to 5`.
fn range(first: u64, last: u64) -> String {
    if first == last {
        first.to_string()
    } else {
        format!("{first} to {last}")
    }
}

/// An entry's rights by their letters.
fn rights(entry: Entry) -> String {
    let letters = [(entry.is_writable(), "W"), (entry.is_user(), "U"), (entry.is_huge(), "H")];
    let set: Vec<&str> =
        letters.iter().filter(|(set, _)| *set).map(|(_, letter)| *letter).collect();
    if set.is_empty() {
        "-".to_string()
    } else {
        set.join(" ")
    }
}

/// A page, or a run of pages, and where it lies.
pub fn pages(model: &Model, lead: &Lead, count: usize) -> Vec<String> {
    let (addr, frame) = (lead.addr(), lead.link.entry.frame());
    let (note, others) = (note(model, frame), others(lead));
    match count as u64 {
        0 | 1 => vec![format!("{addr}{others} in frame {frame}{note}")],
        count => {
            let last = addr.get().wrapping_add((count - 1) * PAGE);
            let last_frame = frame.get().wrapping_add(count - 1);
            vec![
                format!("{addr} to {last:#x}{others}"),
                format!("{count} pages in frames {frame} to {last_frame:#x}{note}"),
            ]
        }
    }
}

/// A large page.
pub fn large_page(model: &Model, lead: &Lead) -> Vec<String> {
    let frame = lead.link.entry.frame();
    vec![
        format!("large page {}{}", lead.addr(), others(lead)),
        format!("from {frame} on{}", note(model, frame)),
    ]
}

/// What is to be said where an entry has further addresses.
fn others(lead: &Lead) -> &'static str {
    if lead.has_others() {
        " and others"
    } else {
        ""
    }
}

/// A table that is not on the board.
pub fn outside(lead: &Lead) -> Vec<String> {
    vec![format!("table {}", lead.link.entry.frame())]
}

//! The steps of a paper as the page's script reads them: each by its differences from the one before.
//!
//! A section's differences are a list, in the order of its rows: a number of rows that stay, below 0 of rows that go,
//! or `[mark, count, cell, ..]` for so many rows that are added (`+`) or changed (`~`). What stays at the end is left
//! out. A cell is a string, or a list of strings and of `[number, stride]`: a number that rises by so much from row to
//! row.

use super::change::{self, changes, Change, Mark};
use super::row::{self, Cell, Piece};
use super::section::{Kind, Section};
use super::step::Step;
use super::value::{object, Value};

/// A section's kind.
pub fn kind(kind: &Kind) -> Value {
    object([("name", kind.name.into()), ("title", kind.title.into())])
}

/// A step, the board before it and the board behind it.
pub fn step(step: &Step, before: &[Section], now: &[Section], picture: Option<usize>) -> Value {
    let made = step.made.as_ref();
    let walk = made.and_then(|made| made.walk.as_ref());
    let walk = walk.iter().flat_map(|walk| walk.steps.iter());
    let changed = before.iter().zip(now).filter_map(|(before, now)| {
        let differences = differences(&changes(before, now));
        (!differences.is_empty()).then_some((now.kind.name, Value::List(differences)))
    });
    object([
        ("place", step.place().into()),
        ("text", made.map_or(String::new(), |made| made.text()).into()),
        ("line", made.map_or(String::new(), |made| made.line()).into()),
        ("words", made.map_or(String::new(), |made| made.words()).into()),
        ("refused", made.map_or(false, |made| made.is_refused()).into()),
        ("walk", Value::List(walk.map(|step| step.to_string().into()).collect())),
        ("changes", Value::Object(changed.collect())),
        ("picture", picture.map_or(Value::Null, Value::from)),
    ])
}

/// The differences of a section.
fn differences(changes: &[Change]) -> Vec<Value> {
    let kept = changes.iter().rev().take_while(|change| change.mark == Mark::Kept).count();
    let changes = &changes[..changes.len() - kept];
    let mut values = Vec::new();
    for group in row::runs(changes, 1, |change, first, _| change.mark == first.mark) {
        match group.first().map(|change| change.mark) {
            Some(Mark::Kept) => values.push(Value::from(group.len())),
            Some(Mark::Gone) => values.push(Value::Number(-(group.len() as i64))),
            _ => values.extend(change::runs(group, 2).into_iter().filter_map(rows)),
        }
    }
    values
}

/// Rows that are added or changed, and like each other.
fn rows(run: &[Change]) -> Option<Value> {
    let first = run.first()?;
    let mark = if first.mark == Mark::Added { "+" } else { "~" };
    let cells = first.row.0.iter().map(cell);
    Some(Value::List([mark.into(), run.len().into()].into_iter().chain(cells).collect()))
}

fn cell(cell: &Cell) -> Value {
    let rises = |piece: &Piece| matches!(piece, Piece::Number { stride: 1.., .. });
    if !cell.pieces().iter().any(rises) {
        return cell.to_string().into();
    }
    let piece = |piece: &Piece| match piece {
        Piece::Number { stride: stride @ 1.., .. } => {
            Value::List(vec![piece.to_string().into(), (*stride).into()])
        }
        _ => piece.to_string().into(),
    };
    Value::List(cell.pieces().iter().map(piece).collect())
}

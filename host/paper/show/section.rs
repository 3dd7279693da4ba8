//! A board's sections of keyed rows.

use super::model::{FrameView, Mapping, Model, Purpose, TableView, WordView};
use super::row::{Cell, Row};
use calls::PAGE;
use gadulnos::{KernelRegion, Place, UserRegion, VirtAddr};

/// How many of the things that a frame is reached as are told.
const TOLD: usize = 3;

/// Rows under a heading.
pub struct Section {
    /// What it is.
    pub kind: &'static Kind,
    /// Its rows.
    pub rows: Vec<Row>,
}

/// What a section is.
pub struct Kind {
    /// Its name in pages.
    pub name: &'static str,
    /// Its heading.
    pub title: &'static str,
    /// What stands over its columns.
    pub columns: &'static [&'static str],
    /// How many of its columns are a row's key: no two rows have the same.
    pub keys: usize,
    /// What stands in place of rows where there is none.
    pub none: &'static str,
}

const BOARD: Kind =
    Kind { name: "board", title: "Board", columns: &["", ""], keys: 1, none: "nothing" };

const FRAMES: Kind =
    Kind { name: "frames", title: "Frames", columns: &["frame", "holds"], keys: 1, none: "none" };

const KERNEL: Kind = Kind {
    name: "kernel",
    title: "vmalloc list",
    columns: &["start", "size", "state"],
    keys: 1,
    none: "empty",
};

const USER: Kind = Kind {
    name: "user",
    title: "mmap list",
    columns: &["start", "size", "prot", "flags"],
    keys: 1,
    none: "empty",
};

const MARKED: Kind = Kind {
    name: "marked",
    title: "Copy-on-write pages",
    columns: &["page"],
    keys: 1,
    none: "none",
};

const WORDS: Kind = Kind {
    name: "tables",
    title: "Table words",
    columns: &["level", "place", "word", "flags", "leads to"],
    keys: 2,
    none: "all are 0",
};

/// The sections of a board. Two boards of the same number of levels have the same ones.
pub fn sections(model: &Model) -> Vec<Section> {
    vec![
        Section { kind: &BOARD, rows: board(model) },
        Section { kind: &FRAMES, rows: model.frames.iter().map(frame).collect() },
        Section { kind: &KERNEL, rows: model.kernel_regions.iter().map(kernel_region).collect() },
        Section { kind: &USER, rows: model.user_regions.iter().map(user_region).collect() },
        Section { kind: &MARKED, rows: model.marked_pages.iter().map(marked_page).collect() },
        Section { kind: &WORDS, rows: words(model) },
    ]
}

/// The record, the root and next_addr.
fn board(model: &Model) -> Vec<Row> {
    let last = model.frames.last().map_or(model.first_frame, |last| last.frame);
    let frames = Cell::default()
        .decimal(model.total_frames, 0)
        .words(", ")
        .hex(model.first_frame, 0)
        .words(" to ")
        .hex(last, 0);
    let counter = Cell::default()
        .decimal(model.allocated_frames, 0)
        .words(" marked, ")
        .decimal(model.free_frames, 0)
        .words(" free");
    let rows = [
        ("levels", Cell::default().decimal(model.levels, 0)),
        ("frames", frames),
        ("counter", counter),
        ("root", Cell::default().hex(model.root, 0)),
        ("next_addr", Cell::default().hex(model.next_addr, 0)),
    ];
    rows.into_iter().map(|(name, cell)| Row(vec![Cell::of(name), cell])).collect()
}

/// A frame and what it holds.
fn frame(view: &FrameView) -> Row {
    let mut holds = Cell::of(match (view.marked, view.purposes.is_empty()) {
        (true, true) => "marked, but unreached",
        (true, false) => "",
        (false, true) => "free",
        (false, false) => "free, but ",
    });
    for (at, purpose) in view.purposes.iter().take(TOLD).enumerate() {
        holds = holds.words(if at == 0 { "" } else { "; " }).then(serves(purpose));
    }
    match view.purposes.len().checked_sub(TOLD) {
        _ if view.more => holds = holds.words("; and at other addresses"),
        Some(more @ 1..) => holds = holds.words(format!("; and {more} more")),
        _ => {}
    }
    if view.words > 0 && !view.is_table() {
        holds = holds.words(match view.words {
            1 => ", 1 word not 0".into(),
            words => format!(", {words} words not 0"),
        });
    }
    Row(vec![Cell::default().hex(view.frame, 1), holds])
}

/// What a frame is reached as.
fn serves(purpose: &Purpose) -> Cell {
    match purpose {
        Purpose::Root => Cell::of("root"),
        Purpose::Table { level, path } => {
            let path: Vec<String> = path.iter().map(u64::to_string).collect();
            Cell::of(format!("table of level {level}, path {}", path.join(" ")))
        }
        Purpose::Page(mapping) => {
            Cell::of("page of ").hex(mapping.addr, PAGE).words(rights(mapping))
        }
        Purpose::LargePage(mapping) => {
            Cell::of("part of the large page ").hex(mapping.addr, 0).words(rights(mapping))
        }
    }
}

/// What the entry of a page says of it.
fn rights(mapping: &Mapping) -> &'static str {
    let entry = mapping.entry;
    match (entry.is_writable(), entry.is_user(), entry.is_huge()) {
        (false, false, false) => ", read-only",
        (true, false, false) => ", writable",
        (false, true, false) => ", read-only user",
        (true, true, false) => ", writable user",
        (false, false, true) => ", read-only huge",
        (true, false, true) => ", writable huge",
        (false, true, true) => ", read-only user huge",
        (true, true, true) => ", writable user huge",
    }
}

fn kernel_region(region: &KernelRegion) -> Row {
    Row(vec![
        Cell::default().hex(region.start, 0),
        Cell::default().hex(region.size, 0),
        Cell::of(if region.used { "used" } else { "free" }),
    ])
}

fn user_region(region: &UserRegion) -> Row {
    Row(vec![
        Cell::default().hex(region.start, 0),
        Cell::default().hex(region.size, 0),
        Cell::of(region.prot.to_string()),
        Cell::of(region.flags.to_string()),
    ])
}

fn marked_page(page: &VirtAddr) -> Row {
    Row(vec![Cell::default().hex(*page, PAGE)])
}

/// The words of the tables, by level.
fn words(model: &Model) -> Vec<Row> {
    let rows = |table: &TableView| -> Vec<Row> {
        table.words.iter().map(|view| word(model, table, view)).collect()
    };
    model.tables.iter().flat_map(rows).collect()
}

fn word(model: &Model, table: &TableView, word: &WordView) -> Row {
    Row(vec![
        Cell::default().decimal(table.level, 0),
        Cell::default().hex(table.frame, 0).words("[").decimal(word.index, 1).words("]"),
        Cell::default().hex(word.entry.word(), PAGE),
        Cell::of(word.entry.flags()),
        leads_to(model, word),
    ])
}

/// What a word of a table leads to.
fn leads_to(model: &Model, word: &WordView) -> Cell {
    let frame = word.entry.frame();
    let lead = match &word.lead {
        Some(lead) => lead,
        None => return Cell::of("nothing: not present"),
    };
    let at = |cell: Cell| if lead.has_others() { cell.words(" and others") } else { cell };
    let names = match lead.link.place {
        Place::Table | Place::Outside => Cell::of("table ").hex(frame, 1),
        Place::Page => at(Cell::of("page ").hex(lead.addr(), PAGE)),
        Place::LargePage => {
            let page = at(Cell::of("large page ").hex(lead.addr(), 0));
            return page.words(", frames from ").hex(frame, 0).words(" on");
        }
    };
    let names = names.words(match model.frame(frame) {
        None => ", not on this board",
        Some(frame) if !frame.marked => ", whose frame is free",
        Some(_) => "",
    });
    match (lead.link.place, lead.mappings.first()) {
        (Place::Page, Some(mapping)) => names.words(less(mapping)),
        _ => names,
    }
}

/// Where the tables above a page let user code do less than the page's own entry says.
fn less(mapping: &Mapping) -> &'static str {
    let Mapping { entry, user_reads, user_writes, .. } = mapping;
    match (entry.is_user(), user_reads, entry.is_writable() && !user_writes) {
        (true, false, _) => "; user code may not use it",
        (true, true, true) => "; user code may only read it",
        _ => "",
    }
}

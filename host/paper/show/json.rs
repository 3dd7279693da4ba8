//! The board as JSON.

use super::model::{FrameView, Mapping, Model, Purpose, TableView, WordView};
use super::step::{Made, Step};
use super::value::{hex, object, Value};
use gadulnos::{Entry, KernelRegion, Place, Tally, UserRegion, VirtAddr, Walk};

/// A step: the call, what it told, and the board behind it.
pub fn step(step: &Step, model: &Model, malformed: Option<u64>) -> Value {
    let made = step.made.as_ref();
    let of = |view: fn(&Made) -> Value| made.map_or(Value::Null, view);
    object([
        ("call", Value::from(step.number)),
        ("calls", Value::from(step.of)),
        ("text", of(|made| made.text().into())),
        ("line", of(|made| made.line().into())),
        ("number", of(|made| made.told.line.number.into())),
        ("value", of(|made| hex(made.told.line.value))),
        ("found", of(|made| made.found().map_or(Value::Null, found))),
        ("words", of(|made| made.words().into())),
        ("walk", of(|made| made.walk.as_ref().map_or(Value::Null, walk))),
        ("malformed_at", malformed.map_or(Value::Null, Value::from)),
        ("board", board(model)),
    ])
}

fn found(tally: Tally) -> Value {
    object([
        ("freed", tally.freed.into()),
        ("already_free", tally.already_free.into()),
        ("not_here", tally.not_here.into()),
    ])
}

/// The entries that a translation read.
fn walk(walk: &Walk) -> Value {
    let steps = walk.steps.iter().map(|step| {
        object([
            ("level", step.level.into()),
            ("table", hex(step.table)),
            ("index", step.index.into()),
            ("word", hex(step.entry.word())),
            ("verdict", step.verdict.to_string().into()),
        ])
    });
    Value::List(steps.collect())
}

fn board(model: &Model) -> Value {
    object([
        ("levels", model.levels.into()),
        ("first_frame", hex(model.first_frame)),
        ("total_frames", model.total_frames.into()),
        ("allocated_frames", model.allocated_frames.into()),
        ("root", hex(model.root)),
        ("frames", Value::List(model.frames.iter().map(frame).collect())),
        ("kernel_regions", Value::List(model.kernel_regions.iter().map(kernel_region).collect())),
        ("user_regions", Value::List(model.user_regions.iter().map(user_region).collect())),
        ("next_addr", hex(model.next_addr)),
        ("marked_pages", Value::List(model.marked_pages.iter().map(|page| hex(*page)).collect())),
        ("tables", Value::List(model.tables.iter().map(table).collect())),
    ])
}

fn frame(view: &FrameView) -> Value {
    let mut members = vec![
        ("frame", hex(view.frame)),
        ("marked", view.marked.into()),
        ("holds", Value::List(view.purposes.iter().map(purpose).collect())),
        ("words_not_0", view.words.into()),
    ];
    members.extend(view.more.then(|| ("more", true.into())));
    Value::Object(members)
}

fn purpose(purpose: &Purpose) -> Value {
    match purpose {
        Purpose::Root => object([("kind", "root".into())]),
        Purpose::Table { level, path } => {
            object([("kind", "table".into()), ("level", (*level).into()), ("path", numbers(path))])
        }
        Purpose::Page(page) => mapping("page", page),
        Purpose::LargePage(page) => mapping("part_of_large_page", page),
    }
}

fn mapping(kind: &'static str, mapping: &Mapping) -> Value {
    object([("kind", kind.into()), ("addr", hex(mapping.addr)), ("flags", flags(mapping.entry))])
}

fn kernel_region(region: &KernelRegion) -> Value {
    object([("start", hex(region.start)), ("size", hex(region.size)), ("used", region.used.into())])
}

fn user_region(region: &UserRegion) -> Value {
    object([
        ("start", hex(region.start)),
        ("size", hex(region.size)),
        ("prot", region.prot.bits().into()),
        ("flags", region.flags.bits().into()),
        ("prot_words", region.prot.to_string().into()),
        ("flags_words", region.flags.to_string().into()),
    ])
}

fn table(table: &TableView) -> Value {
    object([
        ("frame", hex(table.frame)),
        ("level", table.level.into()),
        ("path", numbers(&table.path)),
        ("entries", Value::List(table.words.iter().map(word).collect())),
    ])
}

fn word(word: &WordView) -> Value {
    object([
        ("index", word.index.into()),
        ("word", hex(word.entry.word())),
        ("flags", flags(word.entry)),
        ("leads_to", leads_to(word)),
    ])
}

fn leads_to(word: &WordView) -> Value {
    let lead = match &word.lead {
        Some(lead) => lead,
        None => return Value::Null,
    };
    let kind = match lead.link.place {
        Place::Table => "table",
        Place::Page => "page",
        Place::LargePage => "large_page",
        Place::Outside => "outside",
    };
    let mut members = vec![("kind", kind.into()), ("frame", hex(word.entry.frame()))];
    members.extend(address(lead.addr(), lead.mappings.first()));
    let others = lead.told.addrs.iter().enumerate().skip(1);
    let others =
        others.map(|(at, addr)| Value::Object(address(*addr, lead.mappings.get(at)).into()));
    let others: Vec<Value> = others.collect();
    members.extend((!others.is_empty()).then_some(("others", Value::List(others))));
    members.extend(lead.told.more.then(|| ("more", true.into())));
    Value::Object(members)
}

/// An address, and what user code may do there if it is a page's.
fn address(addr: VirtAddr, mapping: Option<&Mapping>) -> [(&'static str, Value); 3] {
    let may = |may: fn(&Mapping) -> bool| mapping.map_or(Value::Null, |of| may(of).into());
    [
        ("addr", hex(addr)),
        ("user_reads", may(|mapping| mapping.user_reads)),
        ("user_writes", may(|mapping| mapping.user_writes)),
    ]
}

/// An entry's flags by their names.
fn flags(entry: Entry) -> Value {
    let flags = entry.flags();
    let names = flags.split(' ').filter(|name| *name != "-");
    Value::List(names.map(Value::from).collect())
}

fn numbers(numbers: &[u64]) -> Value {
    Value::List(numbers.iter().copied().map(Value::from).collect())
}

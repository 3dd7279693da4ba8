//! One board, changed in many ways, and calls on each.

use crate::boards::{self, any_levels, Base};
use crate::damage::{walked, Kind};
use crate::given::{self, Given};
use crate::guard::Against;
use crate::model::Model;
use crate::port::{self, Port};
use crate::protect::{self, Events};
use crate::question;
use crate::report::{equal, holds};
use crate::rights::Cases;
use crate::table;
use crate::working::{self, Verdicts};
use calls::{Call, PAGE, USER_WINDOW};
use gadulnos::raw::{Frames, Kernel, Line, Marked, Parts, Told, User, LEVELS, MOST_LEVELS};
use std::collections::BTreeMap;
use trial::generate::Random;
use trial::minimise;

/// What a run met with.
#[derive(Default)]
pub struct Seen {
    /// How often each number was answered by each call, and on boards of five levels.
    pub numbers: BTreeMap<(&'static str, u64), u64>,
    pub on_five: BTreeMap<(&'static str, u64), u64>,
    /// How often a translation was answered so, by the levels that it was lent: 4, 5, or 0 for others.
    pub walks: BTreeMap<(u64, u64), u64>,
    pub verdicts: Verdicts,
    pub cases: Cases,
    /// The same of an mprotect on any numbers, and what was met with on boards.
    pub protects: BTreeMap<(u64, u64), u64>,
    pub events: Events,
    /// What was met with where frames were given back.
    pub given: Given,
    /// Calls whose words were compared with the model's, those of them that walk five levels, and releases
    /// in whose midst the model gave up.
    pub compared: u64,
    pub walked_five: u64,
    pub gave_up: u64,
}

/// A call on a board: one of the tape's, or one that no tape has.
#[derive(Clone, Copy)]
pub enum Shot {
    Call(Call),
    Init(u64, u64),
    /// A start, of so many levels if they are named.
    Start(u64, u64, Option<u64>),
    Walk(Walk),
    /// A translation of an address with its working.
    Show(u64),
    /// mmap's search by itself, for so many bytes.
    Search(u64),
}

/// A walk on other numbers than the record's.
#[derive(Clone, Copy, Debug)]
pub struct Walk {
    pub start: u64,
    pub total: u64,
    pub levels: u64,
    pub root: u64,
    pub virt: u64,
}

impl Shot {
    pub fn name(&self) -> &'static str {
        match self {
            Shot::Call(call) => call.shape().name,
            Shot::Init(..) => "init",
            Shot::Start(_, _, None) => "start",
            Shot::Start(_, _, Some(_)) => "start_levels",
            Shot::Walk(..) => "walk",
            Shot::Show(..) => "show_translate",
            Shot::Search(..) => "find_free_region",
        }
    }

    fn describe(&self) -> String {
        match self {
            Shot::Call(call) => minimise::describe(&[*call]),
            Shot::Init(from, to) => format!("init from={from:x} to={to:x}\n"),
            Shot::Start(from, to, levels) => {
                format!("start from={from:x} to={to:x} levels={levels:x?}\n")
            }
            Shot::Walk(walk) => format!("{walk:x?}\n"),
            Shot::Show(virt) => format!("show_translate virt={virt:x}\n"),
            Shot::Search(size) => format!("find_free_region size={size:x}\n"),
        }
    }

    /// The levels of the board that it is made on, or makes.
    fn levels(&self, board: &Parts) -> u64 {
        match self {
            Shot::Call(_) | Shot::Show(_) | Shot::Search(_) => board.frames().levels,
            Shot::Init(..) | Shot::Start(_, _, None) => LEVELS,
            Shot::Start(_, _, Some(levels)) => *levels,
            Shot::Walk(walk) => walk.levels,
        }
    }
}

/// Changes copies of a board and plays calls on each; the number of calls.
pub fn round(random: &mut Random, kind: Kind, seen: &mut Seen) -> Result<u64, String> {
    let base = boards::base(random)?;
    let mut calls = 0;
    for _ in 0..6 {
        let mut board = boards::copy(&base.board);
        kind.apply(random, &mut board);
        let against = random.one_of(&[Against::Before, Against::Behind]);
        let mut port = port::guarded(&board, against);
        question::on_board(random, &port, seen)?;
        for _ in 0..8 {
            let shot = draw(random, &base, &port);
            fire(random, &mut port, &shot, seen)
                .map_err(|why| format!("{}{why}", shot.describe()))?;
            calls += 1;
        }
    }
    Ok(calls)
}

/// Mostly calls drawn to what stood before the change, and releases and protections of what is listed now.
fn draw(random: &mut Random, base: &Base, port: &Port) -> Shot {
    match random.below(25) {
        0 => Shot::Init(memory(random).0, memory(random).1),
        1 => {
            let (from, to) = memory(random);
            let named = random.chance(2, 3).then(|| any_levels(random));
            Shot::Start(from, to, named)
        }
        2 => Shot::Walk(any_walk(random, port)),
        3 => {
            let any = [random.word(), random.word() >> 20, random.below(64) * PAGE];
            let sizes = [0, 1, PAGE, 8 * PAGE, USER_WINDOW.1 - USER_WINDOW.0, USER_WINDOW.1];
            let few = random.one_of(&sizes);
            Shot::Search(random.one_of(&[few, any[0], any[1], any[2]]))
        }
        4 | 5 => Shot::Show(working::address(random, port)),
        6..=9 => listed(random, port).map_or_else(|| drawn(random, base), Shot::Call),
        23 | 24 => protect::listed(random, port).map_or_else(|| drawn(random, base), Shot::Call),
        _ => drawn(random, base),
    }
}

/// A walk on the record's numbers and on others, mostly along tables that stand.
fn any_walk(random: &mut Random, port: &Port) -> Walk {
    let record = port.frames();
    let any = [random.word(), random.word() >> 30, random.below(9000)];
    let levels = any_levels(random);
    if random.chance(1, 2) {
        let virt = walked(random, &port.words, Frames { levels, ..record }, port.root);
        let Frames { start_frame: start, total, .. } = record;
        return Walk { start, total, levels, root: port.root, virt };
    }
    let start = random.one_of(&[record.start_frame, record.start_frame, any[0], any[1]]);
    let near = record.total.wrapping_add(1);
    let total = random.one_of(&[record.total, near, 8193, any[0], any[2]]);
    let root = random.one_of(&[port.root, start, start.wrapping_add(1), any[1]]);
    Walk { start, total, levels, root, virt: random.word() }
}

fn drawn(random: &mut Random, base: &Base) -> Shot {
    Shot::Call(random.one_of(&base.calls))
}

/// Ends of a memory, at times reversed or above 2^52.
fn memory(random: &mut Random) -> (u64, u64) {
    let any = [random.word(), random.word() >> 13, random.below(1 << 20)];
    let from = random.one_of(&[0, 1, 0x1800, 0x10_0000, (1 << 52) - PAGE, any[0], any[1], any[2]]);
    let bytes = random.one_of(&[0, PAGE - 1, PAGE, 3 * PAGE, 16 * PAGE, 9000 * PAGE, any[1]]);
    match random.chance(1, 8) {
        true => (from, from.wrapping_sub(bytes)),
        false => (from, from.wrapping_add(bytes)),
    }
}

/// A release of a listed region, or a write to a marked page.
fn listed(random: &mut Random, port: &Port) -> Option<Call> {
    let at = random.below(256);
    match random.below(3) {
        0 => {
            let list = Kernel::unpack(&port.kernel)?;
            Some(Call::Vfree { addr: list.slots[(at % list.count.clamp(1, 256)) as usize].start })
        }
        1 => {
            let list = User::unpack(&port.user)?;
            let region = list.slots[(at % list.count.clamp(1, 256)) as usize];
            Some(Call::Munmap { addr: region.start, size: region.size })
        }
        _ => {
            let list = Marked::unpack(&port.marked)?;
            let addr = list.pages[(at % list.count.clamp(1, 256)) as usize];
            Some(Call::Fault { addr, code: random.one_of(&[3, 7]) })
        }
    }
}

/// Makes a call and checks it.
fn fire(random: &mut Random, port: &mut Port, shot: &Shot, seen: &mut Seen) -> Result<(), String> {
    let before = port::unguarded(port);
    let mut model = Model::of(&before);
    let (told, wanted) = match *shot {
        Shot::Call(call) => (port::play(port, &call), model.play(&call)),
        Shot::Init(from, to) => lines((port.init(from, to), model.init(from, to))),
        Shot::Start(from, to, levels) => {
            let line = match levels {
                Some(levels) => port.start_levels(from, to, levels),
                None => port.start(from, to),
            };
            lines((line, model.start(has_lengths(&before), from, to, levels.unwrap_or(LEVELS))))
        }
        Shot::Walk(lent) => return walk(port, model, lent, seen),
        Shot::Show(virt) => {
            lines(working::show(&port.words, port.frames(), &mut model, virt, seen)?)
        }
        Shot::Search(size) => lines(search(port, &model, size)?),
    };
    let line = told.line;
    *seen.numbers.entry((shot.name(), line.number)).or_default() += 1;
    let on_five = shot.levels(&before) == MOST_LEVELS;
    if on_five {
        *seen.on_five.entry((shot.name(), line.number)).or_default() += 1;
    }
    table::allows(shot.name(), line)?;
    if table::changes_nothing(shot.name(), line.number) {
        holds(same(port, &before), &format!("nothing changed by {line:x?}"))?;
    }
    if let Shot::Call(call) = shot {
        given::on_board(&before, port, call, told, seen)?;
    }
    equal(line, wanted.line)?;
    if model.gave_up {
        seen.gave_up += 1;
        return Ok(());
    }
    equal(told, wanted)?;
    seen.compared += 1;
    seen.walked_five += u64::from(on_five && table::walks(shot.name()) && line.number != 10);
    compare(port, &before, &model)?;
    match *shot {
        Shot::Call(Call::Mprotect { addr, size, prot }) => {
            protect::on_board(random, &before, port, (addr, size, prot), line, seen)
        }
        Shot::Call(call) => ask(port, &mut model, &call, line, seen),
        _ => Ok(()),
    }
}

/// The answers of a call that gives no frame back.
fn lines((line, wanted): (Line, Line)) -> (Told, Told) {
    (line.into(), wanted.into())
}

/// The questions beside a call: the three counts, and of an address that was translated its working and what
/// user code may.
fn ask(
    port: &Port,
    model: &mut Model,
    call: &Call,
    line: Line,
    seen: &mut Seen,
) -> Result<(), String> {
    match *call {
        Call::Counts => equal(port::counts(port), model.counts()),
        Call::Translate { addr } => {
            question::ask(&port.words, port.frames(), model, addr, seen)?;
            let shown = working::show(&port.words, port.frames(), model, addr, seen)?;
            equal(shown, (line, line))
        }
        _ => Ok(()),
    }
}

/// The search and the model's answer. Both have compared as many regions; where it does not run, the number
/// stays.
fn search(port: &Port, model: &Model, size: u64) -> Result<(Line, Line), String> {
    let old = u64::MAX;
    let mut compared = old;
    let line = gadulnos::raw::find_free_region(&port.user, size, &mut compared);
    let (wanted, counted) = model.find_free_region(size);
    equal(compared, counted.unwrap_or(old))?;
    Ok((line, wanted.map_or_else(Line::refused, Line::met)))
}

/// translate and its working, the user question, mprotect and unmap_page on any numbers.
fn walk(port: &mut Port, mut model: Model, lent: Walk, seen: &mut Seen) -> Result<(), String> {
    let Walk { start, total, levels, root, virt } = lent;
    let frames = Frames { start_frame: start, total, allocated: 0, levels };
    model.frames = Some(frames);
    model.root = root;
    let words = &mut port.words;
    question::ask(words, frames, &mut model, virt, seen)?;
    let (line, wanted) = working::show(words, frames, &mut model, virt, seen)?;
    equal(line, wanted)?;
    let known = if (LEVELS..=MOST_LEVELS).contains(&levels) { levels } else { 0 };
    *seen.walks.entry((known, line.number)).or_default() += 1;
    protect::on_numbers(port, &mut model, lent, seen)?;
    let line = gadulnos::raw::unmap_page(&mut port.words, start, total, levels, root, virt);
    equal(line, model.play(&Call::UnmapPage { virt }).line)?;
    holds(port.words[..] == model.words[..], "the model's words")
}

/// Whether each part has its length: the words may have any, and the bitmap has it by its type.
fn has_lengths(board: &Parts) -> bool {
    board.fields.len() == Frames::BYTES
        && board.kernel.len() == Kernel::BYTES
        && board.user.len() == User::BYTES
        && board.marked.len() == Marked::BYTES
}

fn same(port: &Port, board: &Parts) -> bool {
    port.words[..] == board.words[..]
        && port.fields[..] == board.fields[..]
        && port.bits[..] == board.bits[..]
        && port.root == board.root
        && port.kernel[..] == board.kernel[..]
        && port.user[..] == board.user[..]
        && port.marked[..] == board.marked[..]
}

/// That each part is the model's; one that stands for no record has stayed.
fn compare(port: &Port, before: &Parts, model: &Model) -> Result<(), String> {
    model.compare(port)?;
    let stayed = [
        ("fields", model.frames.is_some() || port.fields[..] == before.fields[..]),
        ("kernel", model.kernel.is_some() || port.kernel[..] == before.kernel[..]),
        ("user", model.user.is_some() || port.user[..] == before.user[..]),
        ("marked", model.marked.is_some() || port.marked[..] == before.marked[..]),
    ];
    stayed.iter().try_for_each(|(name, stayed)| holds(*stayed, &format!("{name} as it was")))
}

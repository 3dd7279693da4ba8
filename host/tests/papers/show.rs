//! `paper show`: JSON, picture and page are well-formed and hold what the board holds.

mod examples;

use crate::draw::{pick, some_calls};
use crate::json::Json;
use crate::options::Options;
use crate::page;
use crate::report::{equal, equal_at, holds, Checked, Report};
use crate::run::{tool, Room};
use crate::xml::{self, Piece};
use calls::tape::WIDE_KINDS;
use calls::text::{self, Paper};
use calls::{tape, Random, PAGE};
use gadulnos::{Board, Frame, Link, Place, VirtAddr};
use std::collections::{BTreeMap, BTreeSet};

pub fn check(options: &Options, room: &Room, report: &mut Report) {
    report.tell("show: pages that are told are those that translate", links(options));
    report.tell("show: JSON holds what the board holds, after each call", json(options));
    report.tell("show: the picture holds each table and each present entry", svg(options));
    report.tell("show: the page is well-formed and steps to each board", html(options));
    report.tell("show: the text holds each word, region and frame", written(options));
    report.check("show: addresses as the regions have them", examples::addresses());
    report.check("show: what lies below a shared table has several addresses", examples::shared());
    report.check("show: a picture says how much it leaves out", examples::left_out());
    report.check("show: a malformed tape", malformed());
    report.check("show: names are no markup", markup(room));
    report.check("show: wrong command lines", wrong());
}

/// A paper: any calls, or one as `paper new` draws it.
fn some_paper(random: &mut Random) -> Result<String, String> {
    if random.chance(1, 2) {
        let count = random.below(24);
        let calls = some_calls(random, count, WIDE_KINDS)?;
        return Ok(text::print(&Paper { calls, ..Paper::default() }));
    }
    let seed = random.word().to_string();
    let more = pick(random, &["--levels=5", "--frames=40", "--faults", "--refusals"]);
    Ok(tool(&["new", "--calls=14", "--seed", &seed, more], &[]).quiet(0)?.text())
}

/// Each board of a paper: the fresh one, and the one behind each call.
pub fn boards(text: &str) -> Result<Vec<Board>, String> {
    let paper = text::parse(text.as_bytes()).map_err(|mistakes| format!("{mistakes:?}"))?;
    let mut board = paper::board(&paper.board).map_err(|why| why.to_string())?;
    let mut boards = vec![board.clone()];
    for call in &paper.calls {
        board.play(call);
        boards.push(board.clone());
    }
    Ok(boards)
}

/// The tables of a board, and all their words that are not 0.
pub fn words(board: &Board) -> BTreeMap<(Frame, u64), u64> {
    let below = board.links().into_iter().filter(|link| link.place == Place::Table);
    let tables: BTreeSet<Frame> =
        below.map(|link| link.entry.frame()).chain([board.root()]).collect();
    let of = |frame: &Frame| {
        let table = board.table(*frame);
        let words = table.iter().flat_map(|table| table.entries().collect::<Vec<_>>());
        let set = words.filter(|(_, entry)| entry.word() != 0);
        set.map(|(index, entry)| ((*frame, index as u64), entry.word())).collect::<Vec<_>>()
    };
    tables.iter().flat_map(of).collect()
}

/// The pages of a board: the address, and the frame that it is mapped to.
fn pages(board: &Board) -> BTreeSet<(VirtAddr, Frame)> {
    let is_page = |link: &&Link| link.place == Place::Page;
    let links = board.links();
    links.iter().filter(is_page).map(|link| (link.addr(), link.entry.frame())).collect()
}

/// `Board::links` beside `Board::translate`.
fn links(options: &Options) -> Checked {
    let mut told = 0;
    for i in 0..options.amount {
        let mut random = options.nth(61, i);
        let paper = some_paper(&mut random)?;
        let board = boards(&paper)?.pop().ok_or("a board")?;
        let pages = pages(&board);
        for (addr, frame) in &pages {
            equal_at(addr, board.translate(*addr), Ok(frame.start()))?;
            let inside = VirtAddr::new(addr.get() + random.below(PAGE));
            equal_at(inside, board.translate(inside).map(|phys| phys.frame()), Ok(*frame))?;
        }
        told += pages.len() as u64;
        // The bits above the top index are ignored.
        let low = |addr: VirtAddr| addr.get() % (1 << (12 + 9 * board.levels().get()));
        if kinds(&paper)?.is_subset(&(1..=6).collect()) {
            for page in live_pages(&board) {
                let is_told = pages.iter().any(|(addr, _)| low(*addr) == low(page));
                holds(is_told, &format!("{page} told, in {paper}"))?;
            }
        }
    }
    Ok(told)
}

/// The kinds of a paper's calls. Those up to 6 leave the pages of live regions mapped.
fn kinds(text: &str) -> Result<BTreeSet<u8>, String> {
    let paper = text::parse(text.as_bytes()).map_err(|mistakes| format!("{mistakes:?}"))?;
    Ok(paper.calls.iter().map(calls::Call::kind).collect())
}

/// The pages of live regions.
fn live_pages(board: &Board) -> Vec<VirtAddr> {
    let kernel = board.kernel_regions().into_iter().filter(|region| region.used);
    let kernel = kernel.map(|region| (region.start.get(), region.size));
    let user = board.user_regions().into_iter().map(|region| (region.start.get(), region.size));
    let pages = |(start, size): (u64, u64)| (start..start + size).step_by(PAGE as usize);
    kernel.chain(user).flat_map(pages).map(VirtAddr::new).collect()
}

fn json(options: &Options) -> Checked {
    let mut steps = 0;
    for i in 0..options.amount {
        let paper = some_paper(&mut options.nth(62, i))?;
        let shown =
            tool(&["show", "--as", "json", "--after", "each"], paper.as_bytes()).quiet(0)?;
        let each = match Json::read(&shown.text())? {
            Json::List(each) => each,
            other => return Err(format!("a list, not {other:?}")),
        };
        let boards = boards(&paper)?;
        equal_at(&paper, each.len(), boards.len())?;
        let key = tool(&["key"], paper.as_bytes()).quiet(0)?.text();
        for (step, board) in each.iter().zip(&boards) {
            holds_board(step.get("board")?, board).map_err(|why| format!("{why}, in {paper}"))?;
        }
        for (step, line) in each.iter().skip(1).zip(key.lines()) {
            equal(step.text("line")?, line)?;
        }
        let end = tool(&["show", "--as", "json"], paper.as_bytes()).quiet(0)?.text();
        equal(Some(&Json::read(&end)?), each.last())?;
        steps += boards.len() as u64;
    }
    Ok(steps)
}

/// That an object holds what a board holds.
fn holds_board(json: &Json, board: &Board) -> Result<(), String> {
    equal(json.number("levels")?, board.levels().get())?;
    equal(json.number("first_frame")?, board.first_frame().get())?;
    equal(json.number("total_frames")?, board.total_frames())?;
    equal(json.number("allocated_frames")?, board.allocated_frames())?;
    equal(json.number("root")?, board.root().get())?;
    equal(json.number("next_addr")?, board.next_addr().get())?;
    let region = |region: &Json| {
        Ok((region.number("start")?, region.number("size")?, region.truth("used")?))
    };
    let kernel: Vec<_> =
        json.list("kernel_regions")?.iter().map(region).collect::<Result<_, String>>()?;
    let wanted = board.kernel_regions().into_iter();
    equal(kernel, wanted.map(|region| (region.start.get(), region.size, region.used)).collect())?;
    let user: Vec<_> =
        json.list("user_regions")?.iter().map(user_region).collect::<Result<_, String>>()?;
    let wanted = board.user_regions().into_iter().map(|region| {
        let (prot, flags) = (region.prot.bits(), region.flags.bits());
        (region.start.get(), region.size, i64::from(prot), i64::from(flags))
    });
    equal(user, wanted.collect())?;
    let marked =
        Json::List(board.marked_pages().iter().map(|page| Json::Text(format!("{page}"))).collect());
    equal(json.get("marked_pages")?, &marked)?;
    holds_words(json, board)?;
    holds_frames(json, board)
}

fn user_region(region: &Json) -> Result<(u64, u64, i64, i64), String> {
    let signed = |name: &str| match region.get(name)? {
        Json::Number(number) => Ok(*number),
        other => Err(format!("{other:?}")),
    };
    Ok((region.number("start")?, region.number("size")?, signed("prot")?, signed("flags")?))
}

fn holds_words(json: &Json, board: &Board) -> Result<(), String> {
    let mut told = BTreeMap::new();
    for table in json.list("tables")? {
        let frame = Frame::new(table.number("frame")?);
        for entry in table.list("entries")? {
            told.insert((frame, entry.number("index")?), entry.number("word")?);
        }
    }
    equal(told, words(board))
}

fn holds_frames(json: &Json, board: &Board) -> Result<(), String> {
    let frames = json.list("frames")?;
    equal(frames.len() as u64, board.total_frames())?;
    let mut told = BTreeSet::new();
    for (json, frame) in frames.iter().zip(board.frames()) {
        equal(json.number("frame")?, frame.get())?;
        equal_at(frame, json.truth("marked")?, board.is_allocated(frame))?;
        for purpose in json.list("holds")? {
            if purpose.text("kind")? == "page" {
                let addr = VirtAddr::new(purpose.number("addr")?);
                equal_at(addr, board.translate(addr), Ok(frame.start()))?;
                told.insert((addr, frame));
            }
        }
    }
    let some_more = frames.iter().any(|frame| frame.get("more").is_ok());
    holds_pages(&told, board, some_more)
}

/// That the pages told are the board's: each that can be reached, and where a region has it, as a region has it.
fn holds_pages(
    told: &BTreeSet<(VirtAddr, Frame)>,
    board: &Board,
    some_more: bool,
) -> Result<(), String> {
    let low = |addr: VirtAddr| addr.get() % (1 << (12 + 9 * board.levels().get()));
    let told_low: BTreeMap<u64, VirtAddr> =
        told.iter().map(|(addr, _)| (low(*addr), *addr)).collect();
    equal(told_low.len(), told.len())?;
    let live: BTreeSet<VirtAddr> = live_pages(board).into_iter().collect();
    let large = board.links().iter().any(|link| link.place == Place::LargePage);
    for page in live.iter().filter(|_| !large && !some_more) {
        let here = board.translate(*page).map_or(false, |phys| board.table(phys.frame()).is_some());
        let is_told = told_low.get(&low(*page)).map_or(false, |told| live.contains(told));
        holds(is_told || !here, &format!("{page} told as a region has it"))?;
    }
    let here = |(_, frame): &(VirtAddr, Frame)| board.table(*frame).is_some();
    for (addr, _) in pages(board).into_iter().filter(here) {
        holds(some_more || told_low.contains_key(&low(addr)), &format!("{addr} told"))?;
    }
    Ok(())
}

/// A number behind 0x.
fn hex(text: &str) -> Option<u64> {
    u64::from_str_radix(text.strip_prefix("0x")?, 16).ok()
}

/// The entries that the tables of a picture show, runs taken apart; nothing if one says that it shows not all.
fn drawn(pieces: &[Piece]) -> Option<BTreeSet<(u64, u64, u64)>> {
    let (mut entries, mut table) = (BTreeSet::new(), None);
    for (attributes, text) in xml::texts(pieces, "text") {
        let is_bold = attributes.iter().any(|(name, _)| name == "font-weight");
        let words: Vec<&str> = text.split_whitespace().collect();
        match words.as_slice() {
            ["and", _, "more"] => return None,
            ["root" | "table", frame, ..] if is_bold => table = hex(frame),
            [index, frame, ..] if index.parse::<u64>().is_ok() && hex(frame).is_some() => {
                let (index, frame) = (index.parse().ok()?, hex(frame)?);
                if !text.trim_end().ends_with("absent") {
                    entries.insert((table?, index, frame));
                }
            }
            [first, "to", last, frame, "to", _, ..] if first.parse::<u64>().is_ok() => {
                let (first, last): (u64, u64) = (first.parse().ok()?, last.parse().ok()?);
                let frame = hex(frame)?;
                entries.extend(
                    (first..=last).map(|index| (table.unwrap_or(0), index, frame + index - first)),
                );
            }
            _ => {}
        }
    }
    Some(entries)
}

/// The present entries of a board: table, index, the frame named.
fn present(board: &Board) -> BTreeSet<(u64, u64, u64)> {
    let links = board.links();
    let entry = |link: &Link| (link.table.get(), link.index(), link.entry.frame().get());
    links.iter().map(entry).collect()
}

/// That a picture shows a board's tables and present entries; how many entries, none if it does not show all.
fn holds_picture(pieces: &[Piece], board: &Board) -> Result<u64, String> {
    let names: Vec<String> = xml::texts(pieces, "text").into_iter().map(|(_, text)| text).collect();
    let shown = match drawn(pieces) {
        Some(shown) => shown,
        None => return Ok(0),
    };
    let tables = board.links().into_iter().filter(|link| link.place == Place::Table);
    for frame in tables.map(|link| link.entry.frame()).chain([board.root()]) {
        let begins = [format!("root {frame}"), format!("table {frame}")];
        let is_named = |name: &String| begins.iter().any(|begin| name.starts_with(begin));
        holds(names.iter().any(is_named), &format!("table {frame} in {names:?}"))?;
    }
    equal(&shown, &present(board))?;
    Ok(shown.len() as u64)
}

fn svg(options: &Options) -> Checked {
    let mut entries = 0;
    for i in 0..options.amount {
        let mut random = options.nth(63, i);
        let paper = some_paper(&mut random)?;
        let boards = boards(&paper)?;
        let at = random.below(boards.len() as u64) as usize;
        let words = ["show", "--as", "svg", "--after", &at.to_string()];
        let picture = tool(&words, paper.as_bytes()).quiet(0)?.text();
        let pieces = xml::read(&picture).map_err(|why| format!("{why}, in {paper}"))?;
        let told = |why: String| format!("after call {at}: {why}, in {paper}");
        entries += holds_picture(&pieces, &boards[at]).map_err(told)?;
    }
    holds(entries > 5 * options.amount, &format!("many entries, not {entries}"))?;
    Ok(entries)
}

fn html(options: &Options) -> Checked {
    let (mut steps, mut entries) = (0, 0);
    for i in 0..options.amount {
        let mut random = options.nth(64, i);
        let paper = some_paper(&mut random)?;
        let boards = boards(&paper)?;
        let at = random.below(boards.len() as u64) as usize;
        let words = ["show", "--as", "html", "--after", &at.to_string()];
        let page = tool(&words, paper.as_bytes()).quiet(0)?.text();
        let told = |why: String| format!("page at {at}: {why}, in {paper}");
        let pieces = xml::read(&page).map_err(told)?;
        page::check(&pieces, &boards, at).map_err(told)?;
        entries += holds_picture(&pieces, &boards[at]).map_err(told)?;
        steps += boards.len() as u64;
    }
    holds(entries > 5 * options.amount, &format!("many entries, not {entries}"))?;
    Ok(steps)
}

/// The text at the end: each word beside its place, each region's start, each frame that is marked; folded rows aside.
fn written(options: &Options) -> Checked {
    let mut cases = 0;
    for i in 0..options.amount {
        let paper = some_paper(&mut options.nth(65, i))?;
        let text = tool(&["show"], paper.as_bytes()).quiet(0)?.text();
        holds(
            text.lines().all(|line| line.chars().count() <= 100),
            "lines of at most 100 columns",
        )?;
        let board = boards(&paper)?.pop().ok_or("a board")?;
        let rows: Vec<Vec<&str>> =
            text.lines().map(|line| line.split_whitespace().collect()).collect();
        for ((frame, index), word) in words(&board) {
            let (place, word) = (format!("{frame}[{index}]"), format!("{word:#x}"));
            let stands =
                rows.iter().any(|row| row.windows(2).any(|two| two == [&place[..], &word[..]]));
            let folded = rows
                .iter()
                .any(|row| row.contains(&"to") && row.iter().any(|cell| cell.ends_with(']')));
            holds(stands || folded, &format!("{place} {word} in {text}"))?;
            cases += u64::from(stands);
        }
        let starts = board.user_regions().into_iter().map(|region| (region.start, region.size));
        let kernel = board.kernel_regions().into_iter().map(|region| (region.start, region.size));
        for (start, size) in starts.chain(kernel) {
            let (start, size) = (format!("{start}"), format!("{size:#x}"));
            let stands =
                rows.iter().any(|row| row.windows(2).any(|two| two == [&start[..], &size[..]]));
            holds(stands, &format!("region {start} {size} in {text}"))?;
        }
        let counter = format!("{} marked, {} free", board.allocated_frames(), board.free_frames());
        holds(text.contains(&counter), &counter)?;
    }
    holds(cases > 5 * options.amount, &format!("many words, not {cases}"))?;
    Ok(cases)
}

fn malformed() -> Result<(), String> {
    let bytes = [&tape::serialise(&[calls::Call::Vmalloc { size: 1 }])[..], &[9, 9, 9]].concat();
    for form in ["text", "json", "svg", "html"] {
        let run = tool(&["show", "--tape", "--as", form], &bytes).ended(2)?;
        holds(run.errors.contains("malformed from byte 9 on"), &run.errors)?;
        match form {
            "json" => equal(Json::read(&run.text())?.number("malformed_at")?, 9)?,
            "text" => holds(run.text().contains("malformed at byte 9"), "a word on it")?,
            _ => drop(xml::read(&run.text())?),
        }
    }
    Ok(())
}

/// A paper's name stands on the page, whatever its letters.
fn markup(room: &Room) -> Result<(), String> {
    let name = room.file("<b>&amp; \"q\" ]]> <!-- .txt", "vmalloc 1\n")?;
    let page = tool(&["show", "--as", "html", &name], &[]).quiet(0)?.text();
    let pieces = xml::read(&page)?;
    let titles = xml::texts(&pieces, "h1");
    equal(titles.first().map(|(_, text)| text.as_str()), Some(name.as_str()))
}

fn wrong() -> Result<(), String> {
    tool(&["show", "--as", "pdf"], b"").failed_with(&["text, json, svg or html"])?;
    tool(&["show", "--after", "never"], b"").failed_with(&["each, end or a number"])?;
    tool(&["show", "--after", "2"], b"vmalloc 1\n").failed_with(&["no call 2"])?;
    tool(&["show", "--as", "svg", "--after", "each"], b"").failed_with(&["one board"])?;
    tool(&["show", "--frames", "x"], b"").failed_with(&["--frames"]).map(drop)
}

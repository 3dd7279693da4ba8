//! The papers of examples/: each line is a call with its key, played on a fresh board through the C functions, the
//! model beside; the last lines are the words and the mmap regions that the calls left. A failure names file and
//! line.

use crate::example::{Example, FROM};
use crate::report::{equal, equal_at, holds, Checked, Report};
use calls::text::{self, Setting};
use calls::{Call, PAGE};
use gadulnos::raw::{Frames, Region, User};
use std::collections::BTreeSet;

const PAPERS: [(&str, &str); 4] = [
    ("examples/user-page.txt", include_str!("../../../examples/user-page.txt")),
    ("examples/user-page-five.txt", include_str!("../../../examples/user-page-five.txt")),
    ("examples/mprotect.txt", include_str!("../../../examples/mprotect.txt")),
    ("examples/given-back.txt", include_str!("../../../examples/given-back.txt")),
];

pub fn check(report: &mut Report) {
    for (file, text) in PAPERS {
        report.tell(&format!("papers: {file}"), play(file, text));
        report.tell(&format!("papers: {file} with one line changed"), changed(file, text));
    }
}

/// The lines without their comments, by their number, if anything is left.
fn lines(text: &str) -> impl Iterator<Item = (usize, &str)> + '_ {
    let bare = text.lines().map(|line| line.split('#').next().unwrap_or_default().trim());
    (1..).zip(bare).filter(|(_, line)| !line.is_empty())
}

/// Plays a paper; the number of its lines.
fn play(file: &str, text: &str) -> Checked {
    let mut paper: Option<Paper> = None;
    for (at, line) in lines(text) {
        let told = match &mut paper {
            None => Paper::start(line).map(|fresh| paper = Some(fresh)),
            Some(paper) => paper.line(line),
        };
        told.map_err(|why| format!("{file}:{at}: `{line}`: {why}"))?;
    }
    let paper = paper.ok_or(format!("{file}: no board"))?;
    paper.all_told().map_err(|why| format!("{file}: {why}"))?;
    Ok(lines(text).count() as u64)
}

/// A board in the midst of a paper, which of its words were told, by frame and index, and which of its regions.
struct Paper {
    board: Example,
    told: BTreeSet<(u64, u64)>,
    regions: Vec<Region>,
}

impl Paper {
    fn start(line: &str) -> Result<Paper, String> {
        let paper = text::parse(line.as_bytes()).map_err(|mistakes| mistakes[0].to_string())?;
        match paper.board {
            Setting { frames: Some(frames), from: Some(FROM), levels: Some(levels) } => {
                let board = Example::fresh(levels, frames)?;
                Ok(Paper { board, told: BTreeSet::new(), regions: Vec::new() })
            }
            _ => Err("a board without frames, from and levels".to_string()),
        }
    }

    /// A call and its key, a word or a region.
    fn line(&mut self, line: &str) -> Result<(), String> {
        let parts: Vec<&str> = line.split_whitespace().collect();
        match parts[..] {
            ["word", place, "=", word] => self.word(place, number(word)?),
            ["region", start, "size", size, "prot", prot, "flags", flags] => {
                let (start, size) = (number(start)?, number(size)?);
                self.region(Region { start, size, prot: signed(prot)?, flags: signed(flags)? })
            }
            [ref call @ .., "freed", freed, "already_free", free, "not_here", off] => {
                self.board.finds(read(call)?, [number(freed)?, number(free)?, number(off)?])
            }
            [ref call @ .., "=", value] => self.board.play(&[(read(call)?, 0, number(value)?)]),
            [ref call @ .., "refused", why] => self.board.play(&[(read(call)?, number(why)?, 0)]),
            _ => Err("no key".to_string()),
        }
    }

    /// That a word stands, as in `0x100[0]`.
    fn word(&mut self, place: &str, word: u64) -> Result<(), String> {
        let inner = place.strip_suffix(']').and_then(|place| place.split_once('['));
        let (frame, index) = inner.ok_or("no frame and index")?;
        let (frame, index) = (number(frame)?, number(index)?);
        let Frames { start_frame, total, .. } = self.board.port.frames();
        let is_lent = frame.wrapping_sub(start_frame) < total && index < 512;
        holds(is_lent && self.told.insert((frame, index)), "a word of the board, told once")?;
        self.board.words(&[(frame, index, word)])
    }

    /// That a region is listed behind those told before it.
    fn region(&mut self, region: Region) -> Result<(), String> {
        let listed = self.listed()?.get(self.regions.len()).copied();
        self.regions.push(region);
        equal(listed, Some(region))
    }

    fn listed(&self) -> Result<Vec<Region>, String> {
        let list = User::unpack(&self.board.port.user).ok_or("no list")?;
        Ok(list.slots[..list.count as usize].to_vec())
    }

    /// That every word that is not 0 was told, and every region.
    fn all_told(&self) -> Result<(), String> {
        let places = (0..).map(|i| (FROM / PAGE + i / 512, i % 512));
        let mut words = places.zip(&self.board.port.words[..]);
        let untold = words.find(|(place, word)| **word != 0 && !self.told.contains(place));
        equal_at("words that no line tells", untold, None)?;
        equal_at("the regions", self.listed()?, self.regions.clone())
    }
}

fn read(call: &[&str]) -> Result<Call, String> {
    text::parse_call(&call.join(" ")).map_err(|mistake| mistake.to_string())
}

fn number(text: &str) -> Result<u64, String> {
    text::number(text).ok_or_else(|| format!("`{text}` is no number"))
}

/// A signed number of 32 bits, by its bits.
fn signed(text: &str) -> Result<i32, String> {
    let bits = u32::try_from(number(text)?).map_err(|_| format!("`{text}` is too large"))?;
    Ok(bits as i32)
}

/// That a paper fails, and says where, if a line has another key or another first word, or tells a word or a region
/// no more.
fn changed(file: &str, text: &str) -> Checked {
    let mut cases = 0;
    for (at, line) in lines(text) {
        let (here, somewhere) = (format!("{file}:{at}: "), format!("{file}: "));
        let mut others = vec![(format!("{line}1"), &here), (format!("x{line}"), &here)];
        if line.starts_with("word") || line.starts_with("region") {
            others.push((String::new(), &somewhere));
        }
        for (other, place) in others {
            let each = (1..).zip(text.lines()).map(|(i, line)| if i == at { &other } else { line });
            let text = each.collect::<Vec<&str>>().join("\n");
            let failure = play(file, &text).err().unwrap_or_default();
            holds(failure.starts_with(place), &format!("`{other}` to fail, not `{failure}`"))?;
            cases += 1;
        }
    }
    Ok(cases)
}

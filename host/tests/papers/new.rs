//! `paper new`: papers that are within the release paper's conditions and hold what was wished for.

use crate::options::Options;
use crate::report::{equal, equal_at, holds, Checked, Report};
use crate::run::{tool, Room};
use calls::text::{self, Paper};
use calls::{Call, Random, PAGE};
use gadulnos::{Board, Refusal};
use std::collections::BTreeSet;

pub fn check(options: &Options, room: &Room, report: &mut Report) {
    let mut seen = Seen::default();
    report.tell("new: papers of all sorts are what was wished for", papers(options, &mut seen));
    report.check("new: calls of every sort come, and every number", seen.enough());
    report.tell("new: lists of 256 regions", filled());
    report.check("new: few calls and small boards", small());
    report.check("new: the same command gives the same paper for ever", for_ever());
    report.check("new: what a difficulty stands for", difficulties());
    report.check("new: into a file", file(room));
    report.check("new: wrong command lines", wrong());
}

/// What came in all papers.
#[derive(Default)]
struct Seen {
    numbers: BTreeSet<u64>,
    fixed: u64,
    hinted: u64,
    odd_hints: u64,
    open: u64,
    odd_sizes: u64,
    /// Regions at an address that was released before.
    reused: u64,
    faults: u64,
}

impl Seen {
    fn enough(&self) -> Result<(), String> {
        let numbers = [1, 2, 3, 5, 6, 7, 8, 14, 15, 16, 17];
        equal(&self.numbers, &numbers.into_iter().collect())?;
        let Seen { fixed, hinted, odd_hints, open, odd_sizes, reused, faults, .. } = *self;
        let counts = [fixed, hinted, odd_hints, open, odd_sizes, reused, faults];
        holds(counts.iter().all(|count| *count >= 10), &format!("ten of each sort: {counts:?}"))
    }

    fn note(&mut self, call: &Call, number: u64, value: u64, released: &BTreeSet<u64>) {
        if number != 0 {
            self.numbers.insert(number);
            return;
        }
        match *call {
            Call::Mmap { given: false, .. } => self.open += 1,
            Call::Mmap { flags, .. } if flags & 0x10 != 0 => self.fixed += 1,
            Call::Mmap { addr, .. } if addr % PAGE == 0 => self.hinted += 1,
            Call::Mmap { .. } => self.odd_hints += 1,
            Call::Fault { .. } => self.faults += 1,
            _ => {}
        }
        if let Call::Vmalloc { size } | Call::Mmap { size, .. } = *call {
            self.odd_sizes += u64::from(size % PAGE != 0);
            self.reused += u64::from(released.contains(&value));
        }
    }
}

/// What a drawn paper came to on its board.
struct Came {
    paper: Paper,
    refused: u64,
    cuts: u64,
    faults: u64,
    board: Board,
}

impl Came {
    fn live(&self) -> usize {
        let used = self.board.kernel_regions().iter().filter(|region| region.used).count();
        used + self.board.user_regions().len()
    }
}

/// Plays a paper and asks of each call that it may stand in the list of the theorem, a met fault aside.
fn play(text: &str, seen: &mut Seen) -> Result<Came, String> {
    let paper = text::parse(text.as_bytes()).map_err(|mistakes| format!("{mistakes:?}"))?;
    let board = paper::board(&paper.board).map_err(|why| why.to_string())?;
    let mut came = Came { paper, refused: 0, cuts: 0, faults: 0, board };
    let mut released = BTreeSet::new();
    for call in &came.paper.calls {
        holds(call.kind() <= 6, "calls of document 01's tape alone")?;
        let slots = came.board.kernel_regions();
        let (number, value) = {
            let told = came.board.play(call);
            (told.line.number, told.line.value)
        };
        let turned_away = [11, 13, 18, 19].contains(&number);
        holds(!turned_away, &format!("{call} not turned away with {number}"))?;
        holds(number != 0 || !is_high(call, came.board.levels().get()), &format!("{call} low"))?;
        seen.note(call, number, value, &released);
        came.refused += u64::from(number != 0);
        match *call {
            Call::Fault { .. } => came.faults += u64::from(number == 0),
            Call::Vfree { addr } | Call::Munmap { addr, .. } if number == 0 => {
                released.insert(addr);
            }
            Call::Vmalloc { size } if number == 0 => {
                let taken = slots.iter().find(|slot| slot.start.get() == value);
                let larger = taken.map_or(false, |slot| slot.size >= size + PAGE);
                came.cuts += u64::from(slots.len() == 256 && larger);
            }
            _ => {}
        }
    }
    Ok(came)
}

/// Whether a fixed or page-aligned hinted range ends above the top.
fn is_high(call: &Call, levels: u64) -> bool {
    match *call {
        Call::Mmap { given: true, addr, size, flags, .. }
            if flags & 0x10 != 0 || addr % PAGE == 0 =>
        {
            u128::from(addr) + (u128::from(size) + 4095) / 4096 * 4096 > 1 << (11 + 9 * levels)
        }
        _ => false,
    }
}

/// Words of a command line, each with a chance of one half.
fn some_words(random: &mut Random) -> Vec<String> {
    let mut words = vec!["new".to_string(), format!("--seed={}", random.word())];
    words.push(format!("--calls={}", random.below(40)));
    for choice in ["--plain", "--refusals", "--faults", "--levels=5", "--frames=40", "--from=0"] {
        if random.chance(1, 2) {
            words.push(choice.to_string());
        }
    }
    words
}

fn papers(options: &Options, seen: &mut Seen) -> Checked {
    for i in 0..6 * options.amount {
        let words = some_words(&mut options.nth(31, i));
        paper(&words, seen).map_err(|why| format!("{}: {why}", words.join(" ")))?;
    }
    Ok(6 * options.amount)
}

fn paper(words: &[String], seen: &mut Seen) -> Result<(), String> {
    let words: Vec<&str> = words.iter().map(String::as_str).collect();
    let has = |word: &str| words.contains(&word);
    let text = tool(&words, &[]).quiet(0)?.text();
    let came = play(&text, seen)?;
    let calls = came.paper.calls.len() as u64;
    holds(has(&format!("--calls={calls}")), &format!("as many calls as wished, not {calls}"))?;
    let refused = if has("--refusals") { (calls + 2) / 4 } else { 0 };
    equal(came.refused, refused)?;
    if calls - refused >= 2 {
        holds(came.live() >= 2, &format!("two live regions, not {}", came.live()))?;
    }
    if has("--plain") {
        let named = |call: &Call, met: bool| matches!(call, Call::Mmap { given: true, .. }) && met;
        let open = !has("--refusals");
        holds(!came.paper.calls.iter().any(|call| named(call, open)), "no mmap with an address")?;
    }
    again(&text)?;
    let beyond = came.faults > 0;
    equal(text.contains("--beyond-the-theorem"), beyond)?;
    let seats = tool(&["seats", "--seats", "2"], text.as_bytes());
    equal_at(&seats.errors, seats.status, u8::from(beyond))?;
    holds(has("--faults") || !beyond, "no fault that was not wished for")
}

/// That the command in a paper's head makes the same paper.
fn again(text: &str) -> Result<(), String> {
    let head = text.lines().next().and_then(|line| line.strip_prefix("# paper "));
    let words: Vec<&str> = head.ok_or("a command in the head")?.split(' ').collect();
    equal(tool(&words, &[]).quiet(0)?.text().as_str(), text)
}

fn filled() -> Checked {
    let mut seen = Seen::default();
    for seed in 0..6u64 {
        for (choices, calls) in
            [("--cuts", "257"), ("--full", "257"), ("--cuts", "340"), ("--cuts --full", "700")]
        {
            for more in ["--plain", "--refusals"] {
                let seed = format!("--seed={seed}");
                let mut words = vec!["new", "--calls", calls, more, &seed];
                words.extend(choices.split(' '));
                let text = tool(&words, &[]).quiet(0)?.text();
                let told = |why: String| format!("{}: {why}", words.join(" "));
                fill(&text, &words, &mut seen).map_err(told)?;
            }
        }
    }
    Ok(48)
}

fn fill(text: &str, words: &[&str], seen: &mut Seen) -> Result<(), String> {
    let came = play(text, seen)?;
    equal(came.paper.calls.len().to_string().as_str(), words[2])?;
    holds(came.cuts > 0 || !words.contains(&"--cuts"), "a cut")?;
    let told = format!("while the list holds 256: {}.", came.cuts);
    holds(text.contains(&told) || came.cuts == 0, "the cuts told")?;
    let full = Refusal::ListFull.number();
    holds(seen.numbers.remove(&full) || !words.contains(&"--full"), "an mmap refused with 20")?;
    again(text)?;
    tool(&["seats", "--seats", "2"], text.as_bytes()).quiet(0).map(drop)
}

fn small() -> Result<(), String> {
    let mut seen = Seen::default();
    let none = tool(&["new", "--calls", "0"], &[]).quiet(0)?.text();
    equal(play(&none, &mut seen)?.paper, Paper::default())?;
    for calls in 1..6 {
        let text = tool(&["new", "--calls", &calls.to_string()], &[]).quiet(0)?.text();
        let came = play(&text, &mut seen)?;
        equal_at(calls, came.paper.calls.len(), calls)?;
        holds(came.live() >= calls.min(2), "live regions")?;
    }
    // Root, three tables and a page.
    let text = tool(&["new", "--frames", "5"], &[]).quiet(0)?.text();
    equal(play(&text, &mut seen)?.paper.calls.len(), 12)?;
    tool(&["new", "--frames", "4"], &[]).failed_with(&["4 frames", "--frames"])?;
    tool(&["new", "--frames", "5", "--levels", "5"], &[]).failed_with(&["5 frames"])?;
    tool(&["new", "--frames", "0"], &[]).failed_with(&["11 NO_FREE_FRAME"])?;
    tool(&["new", "--cuts", "--frames", "100"], &[]).failed_with(&["100 frames"]).map(drop)
}

/// A paper that was drawn once.
const DRAWN: &str = "\
# paper new --seed 7 --calls 8 --refusals
# Calls: 8, 2 refused (1, 3). Live regions at the end: 4.
vmalloc 4096
translate 0xffffffc000000df0
mmap 8192 prot=w
mmap 0 prot=rw
translate 0xffffffc000000f89
mmap 4096 prot=r flags=private+anonymous
vmalloc 0xfffffffffffff0f0
mmap 0x100000003000 904 prot=rx fixed
";

fn for_ever() -> Result<(), String> {
    let text = tool(&["new", "--seed", "7", "--calls", "8", "--refusals"], &[]).quiet(0)?.text();
    equal(text.as_str(), DRAWN)
}

fn difficulties() -> Result<(), String> {
    for (word, choices) in
        [("easy", "--calls 6 --plain"), ("middle", "--calls 12"), ("hard", "--calls 24 --refusals")]
    {
        let by_word = tool(&["new", "--difficulty", word, "--seed", "5"], &[]).quiet(0)?.text();
        let words: Vec<&str> =
            ["new", "--seed", "5"].into_iter().chain(choices.split(' ')).collect();
        equal(by_word, tool(&words, &[]).quiet(0)?.text())?;
    }
    let more = tool(&["new", "--difficulty", "easy", "--calls", "9"], &[]).quiet(0)?.text();
    holds(more.starts_with("# paper new --seed 1 --calls 9 --plain\n"), &more)
}

fn file(room: &Room) -> Result<(), String> {
    let path = room.path("new.txt");
    equal(tool(&["new", "--out", &path], &[]).quiet(0)?.text().as_str(), "")?;
    equal(room.text("new.txt")?, tool(&["new"], &[]).quiet(0)?.text())?;
    tool(&["new", "--out", &room.path("no/new.txt")], &[]).failed_with(&["no/new.txt: "]).map(drop)
}

fn wrong() -> Result<(), String> {
    tool(&["new", "--calls", "10001"], &[]).failed_with(&["10000"])?;
    tool(&["new", "--calls", "256", "--cuts"], &[]).failed_with(&["257"])?;
    tool(&["new", "--calls", "513", "--cuts", "--full"], &[]).failed_with(&["514"])?;
    tool(&["new", "--difficulty", "harder"], &[]).failed_with(&["easy, middle or hard"])?;
    tool(&["new", "paper.txt"], &[]).failed_with(&["`paper.txt`"])?;
    tool(&["new", "--levels", "3"], &[]).failed_with(&["4 or 5 levels"]).map(drop)
}

//! `paper seats`: orders, files, the one key, what is refused, and what is told of seats that differ.

use crate::draw::pick;
use crate::options::Options;
use crate::report::{equal, equal_at, holds, Checked, Report};
use crate::run::{tool, Room, Run};
use calls::text::{self, Paper};
use calls::{tape, Call, Random, PAGE};
use gadulnos::{Board, Place};
use std::collections::{BTreeMap, BTreeSet};
use std::time::Instant;

pub fn check(options: &Options, room: &Room, report: &mut Report) {
    report.check("seats: orders that were drawn once are drawn for ever", for_ever(room));
    report.check("seats: more seats leave the first as they are", more_seats(room));
    report.check("seats: every order comes, about as often as the others", every_order(room));
    report.check("seats: odd sizes round to the regions', in the same orders", odd_sizes(room));
    report.tell("seats: each seat's paper ends on the key's board", whole(options, room));
    report.tell("seats: papers that the theorem is not about", beyond());
    report.check("seats: seats that differ are told with their orders", differing(room));
    report.check("seats: a folder is filled whole or not at all", folders(room));
    report.check("seats: which papers are written", only(room));
    report.check("seats: the key says what is proved", key_says(room));
    report.check("seats: boards that a tape does not name", other_board(room));
    report.check("seats: 10000 seats", many());
    report.check("seats: wrong command lines", wrong());
}

/// Five live regions on document 01's board: two of the kernel's, three of the user's.
const FIVE: &str = "vmalloc 5000\nmmap 5000\nvmalloc 1\nmmap 0x100000008000 4096 fixed\n\
                    mmap 1\nmmap 0\n";

/// Runs the verb on a text, with these words.
fn seats(paper: &str, words: &[&str]) -> Run {
    tool(&[&["seats", "-"], words].concat(), paper.as_bytes())
}

/// The orders that a run writes: the regions' numbers, seat by seat.
fn orders(room: &Room, paper: &str, words: &[&str]) -> Result<Vec<Vec<usize>>, String> {
    let folder = room.path("orders");
    room.clear("orders");
    seats(paper, &[words, &["--only", "key", "--out", &folder]].concat()).quiet(0)?;
    let text = room.text("orders/orders.csv")?;
    let numbers = |line: &str| {
        let numbers = line.split(',').map(|number| number.parse().map_err(|_| line.to_string()));
        numbers.collect::<Result<Vec<usize>, String>>()
    };
    let lines: Vec<Vec<usize>> = text.lines().skip(1).map(numbers).collect::<Result<_, _>>()?;
    for (seat, line) in (1..).zip(&lines) {
        equal(line.first(), Some(&seat))?;
    }
    Ok(lines.into_iter().map(|line| line[1..].to_vec()).collect())
}

/// An order by the words of the documentation: Fisher and Yates from the last place down, with splitmix64 begun with
/// w(w(seed) ^ seat).
fn documented(seed: u64, seat: u64, regions: usize) -> Vec<usize> {
    let first = |state: u64| Random::new(state).word();
    let mut random = Random::new(first(first(seed) ^ seat));
    let mut order: Vec<usize> = (1..=regions).collect();
    let mut last = regions;
    while last > 1 {
        last -= 1;
        let other = ((u128::from(random.word()) * (last as u128 + 1)) >> 64) as usize;
        order.swap(last, other);
    }
    order
}

fn for_ever(room: &Room) -> Result<(), String> {
    let drawn = orders(room, FIVE, &["--seats", "4", "--seed", "7"])?;
    equal(
        drawn,
        vec![vec![2, 5, 4, 1, 3], vec![2, 5, 1, 4, 3], vec![1, 3, 2, 5, 4], vec![3, 1, 2, 5, 4]],
    )?;
    for seed in [0, 1, 7, u64::MAX] {
        let drawn = orders(room, FIVE, &["--seats", "40", "--seed", &seed.to_string()])?;
        let wanted: Vec<Vec<usize>> = (1..=40).map(|seat| documented(seed, seat, 5)).collect();
        equal_at(seed, drawn, wanted)?;
    }
    Ok(())
}

fn more_seats(room: &Room) -> Result<(), String> {
    let few = orders(room, FIVE, &["--seats", "3", "--seed", "11"])?;
    let many = orders(room, FIVE, &["--seats", "300", "--seed", "11"])?;
    equal(&few[..], &many[..3])?;
    let other = orders(room, FIVE, &["--seats", "300", "--seed", "12"])?;
    holds(other != many, "another seed to give other orders")
}

/// Of 120 orders each comes among 6000 seats, and none three times as often as it should.
fn every_order(room: &Room) -> Result<(), String> {
    let mut seen: BTreeMap<Vec<usize>, u64> = BTreeMap::new();
    for order in orders(room, FIVE, &["--seats", "6000"])? {
        *seen.entry(order).or_default() += 1;
    }
    equal(seen.len(), 120)?;
    let wanted: BTreeSet<usize> = (1..=5).collect();
    for (order, count) in seen {
        equal(order.iter().copied().collect::<BTreeSet<usize>>(), wanted.clone())?;
        holds((15..150).contains(&count), &format!("{order:?} about 50 times, not {count}"))?;
    }
    Ok(())
}

/// The releases of a seat's text: what stands behind the paper's calls.
fn releases(room: &Room, name: &str, calls: usize) -> Result<Vec<Call>, String> {
    let paper = text::parse(&room.read(name)?).map_err(|mistakes| format!("{mistakes:?}"))?;
    Ok(paper.calls.get(calls..).unwrap_or_default().to_vec())
}

fn odd_sizes(room: &Room) -> Result<(), String> {
    let mut odd = 0;
    for (folder, more) in [("even", &[][..]), ("odd", &["--odd-sizes"][..])] {
        room.clear(folder);
        let path = room.path(folder);
        seats(FIVE, &[&["--seats", "20", "--out", &path], more].concat()).quiet(0)?;
    }
    equal(room.text("odd/orders.csv")?, room.text("even/orders.csv")?)?;
    for seat in 1..=20 {
        let name = format!("seat-{seat:04}.txt");
        let evens = releases(room, &format!("even/{name}"), 6)?;
        for (even, other) in evens.iter().zip(releases(room, &format!("odd/{name}"), 6)?) {
            match (*even, other) {
                (Call::Vfree { addr }, Call::Vfree { addr: other }) => equal(other, addr)?,
                (Call::Munmap { addr, size }, Call::Munmap { addr: to, size: other }) => {
                    equal(to, addr)?;
                    equal((other + PAGE - 1) / PAGE * PAGE, size)?;
                    odd += u64::from(other != size);
                }
                both => return Err(format!("{both:x?}")),
            }
        }
    }
    holds(odd > 30, &format!("sizes that differ, seen {odd}"))
}

/// Random papers: each seat's text and tape say the same, and lead to one board; the key tells all of it.
fn whole(options: &Options, room: &Room) -> Checked {
    let papers = options.amount / 2;
    for i in 0..papers {
        let mut random = options.nth(21, i);
        let seed = random.word().to_string();
        let calls = (1 + random.below(30)).to_string();
        let choice = pick(&mut random, &["--plain", "--refusals", "--levels=5", "--frames=64"]);
        let paper =
            tool(&["new", "--seed", &seed, "--calls", &calls, choice], &[]).quiet(0)?.text();
        let more = pick(&mut random, &["--odd-sizes", "--seed=3"]);
        room.clear("whole");
        seats(&paper, &["--seats", "12", "--out", &room.path("whole"), more]).quiet(0)?;
        one_end(room, &paper).map_err(|why| format!("{why}, in {paper}"))?;
    }
    Ok(papers * 12)
}

fn one_end(room: &Room, paper: &str) -> Result<(), String> {
    let paper = text::parse(paper.as_bytes()).map_err(|mistakes| format!("{mistakes:?}"))?;
    let whole = |name: &str| room.read(&format!("whole/{name}"));
    let told = text::parse(&whole("paper.txt")?).map_err(|mistakes| format!("{mistakes:?}"))?;
    equal((told.board, &told.calls), (paper.board, &paper.calls))?;
    equal(tape::parse(&whole("paper.tape")?, 6).calls, paper.calls.clone())?;
    let mut end: Option<Board> = None;
    for seat in 1..=12 {
        let name = format!("seat-{seat:04}");
        let of = text::parse(&whole(&format!("{name}.txt"))?).map_err(|why| format!("{why:?}"))?;
        equal(tape::parse(&whole(&format!("{name}.tape"))?, 6).calls, of.calls.clone())?;
        equal(of.board, paper.board)?;
        holds(of.calls.starts_with(&paper.calls), "the paper's calls first")?;
        let board = played(&of, paper.calls.len())?;
        match &end {
            Some(end) => holds(*end == board, &format!("seat {seat} to end as the first"))?,
            None => end = Some(board),
        }
    }
    let end = end.ok_or("no seat")?;
    let pages = end.links().iter().filter(|link| link.place != Place::Table).count();
    equal(pages, 0)?;
    holds(end.user_regions().is_empty(), "no mmap region left")?;
    holds(end.kernel_regions().iter().all(|region| !region.used), "no vmalloc region left")?;
    key_tells(room, &paper, &end)
}

/// The board behind a seat's calls, each release of which is met.
fn played(paper: &Paper, calls: usize) -> Result<Board, String> {
    let mut board = paper::board(&paper.board).map_err(|why| why.to_string())?;
    for (at, call) in paper.calls.iter().enumerate() {
        let told = board.play(call);
        holds(at < calls || told.line.number == 0, &format!("{call} met"))?;
    }
    Ok(board)
}

/// key.txt has the paper's lines as `paper key` has them, the number of releases, and the frames at the end.
fn key_tells(room: &Room, paper: &Paper, end: &Board) -> Result<(), String> {
    let key = room.text("whole/key.txt")?;
    let lines: Vec<&str> =
        key.lines().filter(|line| !line.is_empty() && !line.starts_with('#')).collect();
    let of_seat = tool(&["key", &room.path("whole/seat-0007.txt")], &[]).quiet(0)?.text();
    let of_seat: Vec<&str> = of_seat.lines().collect();
    let calls = paper.calls.len();
    equal(lines.get(..calls), of_seat.get(..calls))?;
    let releases = of_seat.len() - calls - 1;
    let met = ["2 0 0000000000000000", "4 0 0000000000000000"];
    holds(of_seat[calls..calls + releases].iter().all(|line| met.contains(line)), "met releases")?;
    let vfrees = of_seat[calls..calls + releases].iter().filter(|line| **line == met[0]).count();
    let line = format!("releases {releases}: vfree {vfrees}, munmap {}", releases - vfrees);
    equal(lines.get(calls).copied(), Some(&*line))?;
    let frames = format!("frames {}", end.allocated_frames());
    equal(lines.get(calls + 1).copied(), Some(&*frames))?;
    equal(of_seat.last().copied(), Some(&*frames))
}

/// Papers that the theorem is not about, what is told of them, and whether they are taken all the same.
const BEYOND: &[(&str, &[&str])] = &[
    (
        "vmalloc 1\nfault 0x1000 write",
        &["-:2: `fault 0x1000 write`", "vmalloc, vfree, mmap and munmap"],
    ),
    ("# a word\nmap_page 0x1000 0x101000", &["-:2: `map_page 0x1000 0x101000`"]),
    ("mmap 1\nmprotect 0x100000000000 1 prot=r", &["-:2: `mprotect 0x100000000000 1 prot=r`"]),
    ("mark_cow 0x1000", &["-:1: `mark_cow 0x1000`"]),
    ("allocate_frame", &["-:1: `allocate_frame`"]),
    ("vmalloc 65536", &["-:1: `vmalloc 0x10000` is turned away with 11 NO_FREE_FRAME"]),
    ("mmap 0x1000 4096\nmmap 0x1000 4096 fixed", &["-:2: ", "turned away with 13 MAP_PAGE_FAILED"]),
    ("mmap 0x7ffffffff000 4097 fixed", &["-:1: ", "ends above 0x800000000000"]),
    ("mmap 0x800000000000 1", &["-:1: ", "ends above 0x800000000000"]),
    (
        "board levels=5 frames=20\nmmap 0xfffffffffff000 4097",
        &["-:2: ", "ends above 0x100000000000000"],
    ),
];

/// Papers that are within it though they look as if they were not.
const WITHIN: &[&str] = &[
    "",
    "mmap 0x7ffffffff000 4096 fixed",
    "mmap 0x800000000001 4096",
    "mmap 0xfffffffffffff000 4096 fixed",
    "board levels=5 frames=20\nmmap 0x800000000000 4096 fixed",
    "board levels=5 frames=20\nmmap 0xfffffffffff000 4096 fixed",
    "vmalloc 1\nfault 0xffffffc000000000 present write\nfault 0 reserved\nvmalloc 1",
    "mmap 1\nmprotect 0x100000000000 0 prot=r\nunmap_page 0x5000\nmap_huge_page 1 1 2m",
    "vmalloc 1\ntranslate 0\nmay_read 0\nmay_write 0\nis_cow 0\nis_allocated 0\nallocated_frames\nis_vmalloc_addr 0",
];

fn beyond() -> Checked {
    for (paper, told) in BEYOND {
        let named: Vec<String> =
            told.iter().map(|told| told.replace("-:", "standard input:")).collect();
        let mut named: Vec<&str> = named.iter().map(String::as_str).collect();
        let taken = seats(paper, &["--seats", "3", "--beyond-the-theorem"]);
        holds(taken.status == 0, &format!("{paper}: {} {}", taken.text(), taken.errors))?;
        named.push("not proved");
        for words in &named {
            holds(taken.errors.contains(words), &format!("`{words}` in {}", taken.errors))?;
        }
        named.pop();
        named.push("--beyond-the-theorem");
        seats(paper, &["--seats", "3"])
            .failed_with(&named)
            .map_err(|why| format!("{paper}: {why}"))?;
    }
    for paper in WITHIN {
        let run = seats(paper, &["--seats", "3"]).quiet(0);
        run.map_err(|why| format!("{paper}: {why}"))?;
    }
    let malformed = tape::serialise(&[Call::Vmalloc { size: 1 }, Call::Vmalloc { size: 1 }]);
    for more in [&[][..], &["--beyond-the-theorem"]] {
        let words = [&["seats", "--seats", "2"], more].concat();
        tool(&words, &malformed[..12]).failed_with(&["malformed from byte 9 on"])?;
    }
    Ok((BEYOND.len() + WITHIN.len() + 2) as u64)
}

/// A frame that two regions share: the one that is released first frees it.
const SHARED: &str = "vmalloc 1\ndeallocate_frame 0x101\nmmap 1\n";

/// A table that serves twice: as the last one of the region at 0, and above the last of the region at 0x40201000, whose
/// own last table is so what the page 0x1000 is mapped to. Released first, the one takes the other's table away.
const TWICE: &str = "board frames=20\nvmalloc 1\nmmap 0 8192 fixed\nvfree 0xffffffc000000000\n\
                     deallocate_frame 0x108\nmmap 0x40201000 4096 fixed\n";

fn differing(room: &Room) -> Result<(), String> {
    for (paper, told) in [
        (
            SHARED,
            [
                "0 freed, 1 already free, 0 not on this board",
                "1 freed, 0 already free, 0 not on this board",
            ],
        ),
        (TWICE, ["`munmap 0x40201000 4096`", " of 40 differ from the key"]),
    ] {
        room.clear("differing");
        let out = room.path("differing");
        let words = ["--seats", "40", "--beyond-the-theorem", "--out", &out];
        let run = seats(paper, &words).ended(3).map_err(|why| format!("{paper}: {why}"))?;
        for words in told {
            holds(run.text().contains(words), &format!("`{words}` in {}", run.text()))?;
        }
        holds(run.text().contains(", order "), "the order of a seat that differs")?;
        holds(room.read("differing").is_err() && room.names("differing").is_empty(), "no folder")?;
    }
    Ok(())
}

fn folders(room: &Room) -> Result<(), String> {
    room.clear("deep");
    let deep = room.path("deep/er");
    seats(FIVE, &["--seats", "12", "--out", &deep]).quiet(0)?;
    equal(room.names("deep/er").len(), 4 + 24)?;
    let keep = room.file("deep/er/notes.txt", "mine")?;
    seats(FIVE, &["--seats", "2", "--out", &deep]).failed_with(&["is not empty", "--force"])?;
    equal(room.names("deep/er").len(), 4 + 24 + 1)?;
    seats(FIVE, &["--seats", "2", "--out", &deep, "--force"]).quiet(0)?;
    let names = ["key.txt", "notes.txt", "orders.csv", "paper.tape", "paper.txt"];
    let seats_of = ["seat-0001.tape", "seat-0001.txt", "seat-0002.tape", "seat-0002.txt"];
    equal(
        room.names("deep/er"),
        [&names[..], &seats_of].concat().iter().map(|name| name.to_string()).collect(),
    )?;
    equal(room.text("deep/er/notes.txt")?.as_str(), "mine")?;
    seats(FIVE, &["--seats", "2", "--out", &keep]).failed_with(&["notes.txt: "])?;
    seats(FIVE, &["--seats", "2", "--out", &format!("{keep}/below")])
        .failed_with(&["notes.txt/below: "])?;
    room.clear("deep");
    Ok(())
}

fn only(room: &Room) -> Result<(), String> {
    for (choice, texts, tapes) in [("text", 1, 0), ("tape", 0, 1), ("key", 0, 0)] {
        room.clear("only");
        seats(FIVE, &["--seats", "3", "--only", choice, "--out", &room.path("only")]).quiet(0)?;
        let count = |ending: &str| {
            let is = |name: &&String| name.starts_with("seat-") && name.ends_with(ending);
            room.names("only").iter().filter(is).count()
        };
        equal_at(choice, (count(".txt"), count(".tape")), (3 * texts, 3 * tapes))?;
    }
    room.clear("only");
    let run =
        seats("vmalloc 1\nis_cow 0\n", &["--seats", "3", "--out", &room.path("only")]).quiet(0)?;
    holds(run.text().contains("no tapes"), "a word on tapes that cannot be")?;
    holds(!room.names("only").iter().any(|name| name.ends_with(".tape")), "no tape")?;
    seats(
        "vmalloc 1\nis_cow 0\n",
        &["--wide", "--seats", "3", "--force", "--out", &room.path("only")],
    )
    .quiet(0)?;
    holds(room.names("only").contains(&"seat-0003.tape".to_string()), "a wide tape")
}

/// key.txt says whether the theorem is about the paper.
fn key_says(room: &Room) -> Result<(), String> {
    let beyond = ["--seats", "2", "--beyond-the-theorem"];
    for (paper, words) in
        [(FIVE, "The theorem of the release paper holds"), ("allocate_frame\n", "not proved")]
    {
        room.clear("says");
        seats(paper, &[&beyond[..], &["--out", &room.path("says")]].concat()).ended(0)?;
        let key = room.text("says/key.txt")?;
        holds(key.lines().next().map_or(false, |line| line.contains(words)), &key)?;
    }
    Ok(())
}

fn other_board(room: &Room) -> Result<(), String> {
    room.clear("board");
    let out = room.path("board");
    seats("vmalloc 40000\n", &["--seats", "1", "--frames", "64", "--out", &out]).quiet(0)?;
    equal(room.text("board/paper.txt")?.as_str(), "board frames=64\nvmalloc 40000\n")?;
    holds(room.text("board/key.txt")?.contains("board frames=64"), "the board in the key")
}

fn many() -> Result<(), String> {
    let paper = "board frames=64\nvmalloc 5000\nvmalloc 1\nmmap 5000\nmmap 1\nmmap 0x1000 1\nmmap 0x200000 1\n\
                 vmalloc 9000\nmmap 12288\nvmalloc 1\nmmap 1\n";
    let since = Instant::now();
    let run = seats(paper, &["--seats", "10000", "--odd-sizes"]).quiet(0)?;
    holds(run.text().starts_with("10000 seats, 10 releases each: "), &run.text())?;
    let seconds = since.elapsed().as_secs();
    holds(seconds < 20, &format!("less than 20 seconds, not {seconds}"))
}

fn wrong() -> Result<(), String> {
    seats(FIVE, &[]).failed_with(&["--seats N"])?;
    seats(FIVE, &["--seats", "0"]).failed_with(&["--seats"])?;
    seats(FIVE, &["--seats", "1000001"]).failed_with(&["1000000"])?;
    seats(FIVE, &["--seats", "2", "--only", "some"]).failed_with(&["text, tape or key"])?;
    seats(FIVE, &["--seats", "2", "--out", "-"]).failed_with(&["--out needs a folder"])?;
    seats(FIVE, &["--seats", "2", "--seed", "x"]).failed_with(&["--seed"])?;
    seats(FIVE, &["--seats", "2", "more"]).failed_with(&["`more`"])?;
    Ok(())
}

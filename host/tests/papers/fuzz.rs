//! Any bytes as paper, tape and answer sheet, and any words on the command line: never a panic, a status from 0 to 3,
//! words wherever the status is 1, in bounded time and memory.

use crate::draw::{any_bytes, pick, some_calls, some_tape};
use crate::guard;
use crate::options::Options;
use crate::report::{holds, Checked, Report};
use crate::run::{tool, Room, Run};
use calls::tape::WIDE_KINDS;
use calls::text::{self, Paper};
use calls::Random;
use paper::VERBS;
use std::fs;
use std::panic::{self, AssertUnwindSafe};

/// Seconds that a run may take, and the most memory of all of them.
const SECONDS: u32 = 30;
const MOST_MEMORY: u64 = 2 << 30;

pub fn check(options: &Options, room: &Room, report: &mut Report) {
    report.tell("fuzz: any bytes as a paper, for each verb", papers(options, room));
    report.tell("fuzz: any bytes as an answer sheet", answers(options, room));
    report.tell("fuzz: any words on the command line", words(options, room));
    report.check("fuzz: memory stays within bounds", memory());
}

/// Runs the tool and asks what must hold of every run.
fn run(words: &[&str], input: &[u8]) -> Result<Run, String> {
    guard::within(SECONDS);
    let told = |why: &str| {
        let shown: String = String::from_utf8_lossy(input).chars().take(400).collect();
        format!("{why}: {words:?} on {shown:?}")
    };
    let caught = panic::catch_unwind(AssertUnwindSafe(|| tool(words, input)));
    let run = caught.map_err(|_| told("a panic"))?;
    holds(run.status <= 3, &told("a status up to 3"))?;
    holds(run.status != 1 || !run.errors.is_empty(), &told("words where the status is 1"))?;
    let is_plain = |letter: char| !letter.is_control() || letter == '\n';
    holds(run.errors.chars().all(is_plain), &told("words that a terminal can show"))?;
    Ok(run)
}

/// Lines that a text may have, right and wrong.
const LINES: &[&str] = &[
    "vmalloc 1",
    "vmalloc 5000",
    "vfree 0xffffffc000000000",
    "mmap 5000 prot=rw",
    "mmap 0x1000 8192 fixed",
    "munmap 0x100000000000 5000",
    "fault 0x1000 write user",
    "translate 0xffffffc000000010",
    "board frames=32 levels=5",
    "board from=0xffffffffffff",
    "board frames=18446744073709551615",
    "bytes 00 ff",
    "mprotect 0x100000000000 5000 prot=r",
    "map_huge_page 0x200000 0x200000 2m writable",
    "map_page 0 0x100000 user",
    "allocate_frame",
    "deallocate_frame 0x100",
    "mark_cow 0x100000000000",
    "fault 0x100000000000 present write",
    "second_fault 0x5000 write",
    "unmap_page 0",
    "mark_allocated 0x105",
    "may_write 0x1000",
    "vmalloc",
    "= = =",
    "# words",
    "mmap 0xfffffffffffff000 4096",
    "vmalloc 0x2000000001",
    "\u{fe}\u{fffd}",
    "mmap -1 prot=-1",
];

/// Bytes of all sorts: random ones, tapes, texts of calls, lines of which some are wrong; at times a few bytes changed.
fn any_paper(random: &mut Random) -> Result<Vec<u8>, String> {
    let mut bytes = match random.below(6) {
        0 => any_bytes(random, 300),
        1 => some_tape(random, 30, 6)?,
        2 => some_tape(random, 30, WIDE_KINDS)?,
        3 => {
            let calls = some_calls(random, 20, WIDE_KINDS)?;
            text::print(&Paper { calls, ..Paper::default() }).into_bytes()
        }
        _ => {
            let lines: Vec<&str> = (0..random.below(12)).map(|_| pick(random, LINES)).collect();
            lines.join(random.one_of(&["\n", "\n", "\r\n", " "])).into_bytes()
        }
    };
    for _ in 0..random.one_of(&[0, 0, 1, 2, 8]) {
        let at = random.below(bytes.len() as u64 + 1) as usize;
        match random.below(3) {
            0 => bytes.insert(at, random.word() as u8),
            1 if at < bytes.len() => drop(bytes.remove(at)),
            _ if at < bytes.len() => bytes[at] ^= 1 << random.below(8),
            _ => {}
        }
    }
    Ok(bytes)
}

/// Command lines that read a paper from standard input.
const COMMANDS: &[&[&str]] = &[
    &["assemble"],
    &["assemble", "--wide"],
    &["disassemble"],
    &["disassemble", "--wide"],
    &["key"],
    &["key", "--explain"],
    &["key", "--wide", "--frames", "3"],
    &["key", "--explain", "--levels", "5"],
    &["translate", "0"],
    &["translate", "-", "0xffffffc000000010", "--working"],
    &["seats", "--seats", "3"],
    &["seats", "--seats", "2", "--beyond-the-theorem", "--odd-sizes"],
    &["show"],
    &["show", "--after", "each"],
    &["show", "--as", "json"],
    &["show", "--as", "json", "--after", "each"],
    &["show", "--as", "svg"],
    &["show", "--as", "html"],
    &["show", "--levels", "5", "--frames", "40", "--after=1"],
];

fn papers(options: &Options, room: &Room) -> Checked {
    let answers = room.file("answers.txt", "1 0 0\nframes 3\n")?;
    for i in 0..4 * options.amount {
        let mut random = options.nth(51, i);
        let bytes = any_paper(&mut random)?;
        for command in COMMANDS {
            let form = random.one_of(&["--tape", "--text", "", "", ""]);
            let known = !matches!(command[0], "assemble" | "disassemble");
            let mut words = command.to_vec();
            words.extend(Some(form).filter(|form| known && !form.is_empty()));
            run(&words, &bytes)?;
        }
        run(&["mark", "-", &answers], &bytes)?;
        run(&["mark", "--key", "-", &answers], &bytes)?;
    }
    Ok(4 * options.amount * (COMMANDS.len() as u64 + 2))
}

fn answers(options: &Options, room: &Room) -> Checked {
    for i in 0..4 * options.amount {
        let mut random = options.nth(52, i);
        let calls = some_calls(&mut random, 8, WIDE_KINDS)?;
        let paper = room.file("paper.txt", text::print(&Paper { calls, ..Paper::default() }))?;
        let key = tool(&["key", &paper], &[]).output;
        let mut bytes = match random.below(3) {
            0 => any_bytes(&mut random, 300),
            1 => any_paper(&mut random)?,
            _ => key,
        };
        for _ in 0..random.below(6) {
            let at = random.below(bytes.len() as u64 + 1) as usize;
            let byte = random.one_of(&[b' ', b'\n', b'0', b'9', b'f', b'#', b'-', b'+', 0, 255]);
            bytes.insert(at, byte);
        }
        let run =
            run(&["mark", &paper, "-", pick(&mut random, &["--explain", "--levels=4"])], &bytes)?;
        holds(matches!(run.status, 0 | 3), "a status of 0 or 3")?;
    }
    Ok(4 * options.amount)
}

/// Values for choices, and words.
const VALUES: &[&str] = &[
    "0",
    "1",
    "2",
    "3",
    "4",
    "5",
    "7",
    "16",
    "64",
    "0x10",
    "300",
    "-1",
    "x",
    "",
    "0x",
    "18446744073709551615",
    "18446744073709551616",
    "0x100000",
    "4096",
    "-",
    "--",
    "text",
    "tape",
    "key",
    "easy",
    "hard",
    "é",
    "\u{1}",
    "1_0",
    "calls",
    "numbers",
    "=",
    "--=",
    "-x",
    "each",
    "end",
    "json",
    "svg",
    "html",
];

/// A word: a verb, a choice of any verb with or without a value, a value, a file. What would be written into is a name
/// in the room.
fn any_word(random: &mut Random, room: &Room, of: usize) -> String {
    let verb = match random.chance(4, 5) {
        true => VERBS[of],
        false => VERBS[random.below(VERBS.len() as u64) as usize],
    };
    let choices: Vec<_> = verb.choices.iter().flat_map(|some| some.iter()).collect();
    let choice = &choices[random.below(choices.len() as u64) as usize];
    match random.below(8) {
        0..=3 if choice.name == "out" => format!("--out={}", room.path("made")),
        0 | 1 if choice.value.is_empty() => format!("--{}", choice.name),
        0..=2 => format!("--{}={}", choice.name, pick(random, VALUES)),
        3 if choice.name != "seats" && choice.name != "calls" => format!("--{}", choice.name),
        4 | 5 => room.path(pick(random, &["p.txt", "p.tape", "a.txt", "none", "", "made"])),
        6 => pick(random, &["help", "--help", "-h", "--nothing"]).to_string(),
        _ => pick(random, VALUES).to_string(),
    }
}

fn words(options: &Options, room: &Room) -> Checked {
    room.file("p.txt", "vmalloc 5000\nmmap 1\nvfree 0\n")?;
    room.file("p.tape", [1, 1, 0, 0, 0, 0, 0, 0, 0])?;
    room.file("a.txt", "1 0 ffffffc000000000\n")?;
    for i in 0..40 * options.amount {
        let mut random = options.nth(53, i);
        let verb = random.below(VERBS.len() as u64) as usize;
        let mut words: Vec<String> = Vec::new();
        if random.chance(19, 20) {
            words.push(VERBS[verb].name.to_string());
        }
        words.extend((0..random.below(6)).map(|_| any_word(&mut random, room, verb)));
        let words: Vec<&str> = words.iter().map(String::as_str).collect();
        run(&words, pick(&mut random, LINES).as_bytes())?;
        room.clear("made");
    }
    Ok(40 * options.amount)
}

/// The most memory that this process had.
fn memory() -> Result<(), String> {
    let text = fs::read_to_string("/proc/self/status").map_err(|why| why.to_string())?;
    let line = text.lines().find_map(|line| line.strip_prefix("VmHWM:")).unwrap_or_default();
    let kilobytes = line.split_whitespace().next().and_then(|number| number.parse::<u64>().ok());
    let bytes = kilobytes.ok_or("no VmHWM in /proc/self/status")? * 1024;
    holds(bytes < MOST_MEMORY, &format!("less than {MOST_MEMORY} bytes, not {bytes}"))
}

//! `paper assemble` and `paper disassemble`: tapes and texts, both ways, and mistakes.

use crate::draw::{any_bytes, some_tape};
use crate::options::Options;
use crate::report::{equal, equal_at, holds, Checked, Report};
use crate::run::{tool, Room};
use calls::tape::{KINDS, WIDE_KINDS};
use calls::text::{self, Paper};
use calls::{tape, Call, Random};
use trial::generate::any_call;

pub fn check(options: &Options, room: &Room, report: &mut Report) {
    report.check("text: document 01's example", example());
    report.tell("text: tapes of calls become texts and tapes again", tapes(options));
    report.tell("text: tapes of any bytes do too", bytes(options));
    report.tell("text: texts become tapes and texts again", texts(options));
    report.tell("text: numbers, spaces and comments as people write them", spellings(options));
    report.tell("text: mistakes, each with its line and column", mistakes(room));
    report.check("text: a wrong text writes nothing", nothing_written(room));
    report.check("text: a call that is no call of document 01's tape", not_on_the_tape());
    report.check("text: a board is not lost in silence", board());
}

/// The text of docs/TAPE.md's tape, and back.
fn example() -> Result<(), String> {
    let written = "vmalloc 1\ntranslate 0xffffffc000000010\nvfree 0xffffffc000000000\n\
                   mmap 5000 prot=w\n";
    let bytes = tool(&["assemble"], written.as_bytes()).quiet(0)?.output;
    let wanted = "01010000000000000006\
                  10000000c0ffffff02\
                  00000000c0ffffff0300000000000000000088130000000000000200000000000000";
    equal(tape::hex(&bytes).as_str(), wanted)?;
    equal(tool(&["disassemble"], &bytes).quiet(0)?.text().as_str(), written)
}

/// A command line for tapes of these kinds.
fn words(verb: &'static str, kinds: u8) -> Vec<&'static str> {
    if kinds == KINDS {
        vec![verb]
    } else {
        vec![verb, "--wide"]
    }
}

/// That a tape becomes a text and the same tape again, with the status of a tape that is malformed or not.
fn there_and_back(bytes: &[u8], kinds: u8) -> Result<(), String> {
    let is_malformed = tape::parse(bytes, kinds).broken.is_some();
    let status = if is_malformed { 2 } else { 0 };
    let written = tool(&words("disassemble", kinds), bytes).ended(status)?;
    equal(written.errors.is_empty(), !is_malformed)?;
    let again = tool(&words("assemble", kinds), &written.output).quiet(0)?.output;
    equal(tape::hex(&again), tape::hex(bytes))
}

fn tapes(options: &Options) -> Checked {
    for i in 0..options.amount {
        let mut random = options.nth(1, i);
        let kinds = random.one_of(&[KINDS, WIDE_KINDS]);
        let bytes = some_tape(&mut random, 40, kinds)?;
        there_and_back(&bytes, kinds).map_err(|why| format!("tape {i}: {why}"))?;
    }
    Ok(options.amount)
}

fn bytes(options: &Options) -> Checked {
    for i in 0..4 * options.amount {
        let mut random = options.nth(2, i);
        let kinds = random.one_of(&[KINDS, WIDE_KINDS]);
        let bytes = any_bytes(&mut random, 120);
        there_and_back(&bytes, kinds).map_err(|why| format!("tape {i}: {why}"))?;
    }
    Ok(4 * options.amount)
}

/// Calls with any fields.
fn some(random: &mut Random, kinds: u8) -> Vec<Call> {
    let count = 1 + random.below(30);
    (0..count)
        .map(|_| {
            let kind = 1 + random.below(kinds.into()) as u8;
            any_call(random, kind)
        })
        .collect()
}

fn texts(options: &Options) -> Checked {
    for i in 0..2 * options.amount {
        let mut random = options.nth(3, i);
        let kinds = random.one_of(&[KINDS, WIDE_KINDS]);
        let calls = some(&mut random, kinds);
        let written = text::print(&Paper { calls: calls.clone(), ..Paper::default() });
        let bytes = tool(&words("assemble", kinds), written.as_bytes()).quiet(0)?.output;
        equal_at(&written, tape::parse(&bytes, kinds).calls, calls)?;
        let again = tool(&words("disassemble", kinds), &bytes).quiet(0)?.text();
        equal(again, written)?;
    }
    Ok(2 * options.amount)
}

/// The same paper with words in other letters, numbers in other forms, spaces, tabs, comments and empty lines.
fn spelt_otherwise(random: &mut Random, written: &str) -> String {
    let mut text = String::new();
    for line in written.lines() {
        if random.chance(1, 5) {
            text += random.one_of(&["\n", "  \t\n", "# a comment: vmalloc 1\n", "\r\n"]);
        }
        text += random.one_of(&["", "", " ", "\t"]);
        let words: Vec<String> = line.split(' ').map(|word| word_otherwise(random, word)).collect();
        text += &words.join(random.one_of(&[" ", " ", "  ", "\t"]));
        text += random.one_of(&["", "", " # behind a call", "#", "\t"]);
        text += random.one_of(&["\n", "\n", "\r\n"]);
    }
    text
}

fn word_otherwise(random: &mut Random, word: &str) -> String {
    let number = text::number(word);
    match (number, random.below(5)) {
        (Some(number), 0) => number.to_string(),
        (Some(number), 1) => format!("{number:#x}"),
        (Some(number), 2) => format!("0x{number:016X}"),
        (None, 0) => word.to_uppercase(),
        _ => word.to_string(),
    }
}

fn spellings(options: &Options) -> Checked {
    for i in 0..2 * options.amount {
        let mut random = options.nth(4, i);
        let calls = some(&mut random, WIDE_KINDS);
        let written = text::print(&Paper { calls: calls.clone(), ..Paper::default() });
        let otherwise = spelt_otherwise(&mut random, &written);
        let run = tool(&["assemble", "--wide"], otherwise.as_bytes()).quiet(0);
        let bytes = run.map_err(|why| format!("{why}: {otherwise}"))?.output;
        equal_at(&otherwise, tape::parse(&bytes, WIDE_KINDS).calls, calls)?;
    }
    Ok(2 * options.amount)
}

/// Wrong texts, and what is said of them behind the file's name: line, column, what was found, what would do.
const MISTAKES: &[(&str, &[&str])] = &[
    ("vmallok 1", &[":1:1: found `vmallok`", "vmalloc"]),
    ("vmalloc 1\n\n  vfree", &[":3:8: found the end of the line, wanted an address"]),
    ("vmalloc", &[":1:8: found the end of the line, wanted a size"]),
    ("vmalloc twelve", &[":1:9: found `twelve`, wanted a size"]),
    ("vmalloc -1", &[":1:9: found `-1`"]),
    ("vmalloc 0x", &[":1:9: found `0x`"]),
    ("vmalloc 18446744073709551616", &[":1:9: found `18446744073709551616`"]),
    ("vmalloc 1 2", &[":1:11: found `2`"]),
    ("translate", &[":1:10: found the end of the line, wanted an address"]),
    ("munmap 0x1000", &[":1:14: found the end of the line, wanted a size"]),
    ("# all is well\nmmap 5000 prot=q", &[":2:16: found `q`, wanted a protection"]),
    ("mmap 5000 fixd", &[":1:11: found `fixd`"]),
    ("mmap 1 2 3", &[":1:10: found `3`"]),
    ("fault 0x1000 wriet", &[":1:14: found `wriet`"]),
    ("fault 0x1000 code=", &[":1:19: found nothing, wanted an error code"]),
    ("board frames=x", &[":1:14: found `x`, wanted a number of frames"]),
    ("vmalloc 1\nboard frames=4", &[":2:1: found `board`", "line 1"]),
    ("board frames=4\nboard frames=4", &[":2:1: found `board`", "line 1"]),
    ("bytes zz", &[":1:7: found `zz`"]),
    ("bytes 00\nvmalloc 1", &[":2:1: found `vmalloc`", "line 1"]),
    ("vmalloc 1\n\u{1}", &[":2:1: found "]),
    ("vmalloc one\nvmalloc 1\nvfree\nvmalloc two", &[":1:9: ", ":3:6: ", ":4:9: "]),
];

fn mistakes(room: &Room) -> Checked {
    for (text, told) in MISTAKES {
        let name = room.file("wrong.txt", text)?;
        for verb in [&["assemble"][..], &["key", "--text"], &["seats", "--text", "--seats", "1"]] {
            let run = tool(&[verb, &[name.as_str()]].concat(), &[]);
            let lines: Vec<String> =
                told.iter()
                    .map(|told| {
                        if told.starts_with(':') {
                            format!("{name}{told}")
                        } else {
                            told.to_string()
                        }
                    })
                    .collect();
            let lines: Vec<&str> = lines.iter().map(String::as_str).collect();
            run.failed_with(&lines).map_err(|why| format!("{verb:?} {text:?}: {why}"))?;
        }
    }
    Ok(3 * MISTAKES.len() as u64)
}

/// A file that is there stays as it is, and none is made.
fn nothing_written(room: &Room) -> Result<(), String> {
    let wrong = room.file("wrong.txt", "vmalloc 1\nvmalloc x\n")?;
    let old = room.file("old.tape", "old")?;
    let new = room.path("new.tape");
    tool(&["assemble", &wrong, "--out", &old], &[]).failed_with(&[":2:9: found `x`"])?;
    tool(&["assemble", &wrong, "--out", &new], &[]).failed_with(&[":2:9: found `x`"])?;
    equal(room.text("old.tape")?.as_str(), "old")?;
    holds(room.read("new.tape").is_err(), "no new.tape")?;
    let right = room.file("right.txt", "vmalloc 1\n")?;
    tool(&["assemble", &right, "--out", &old], &[]).quiet(0)?;
    equal(room.read("old.tape")?.len(), 9)?;
    holds(!room.names("").iter().any(|name| name.contains("part")), "no part of a file left")
}

fn not_on_the_tape() -> Result<(), String> {
    let text = b"vmalloc 1\n# a question\nmay_read 0xffffffc000000000\n";
    tool(&["assemble"], text).failed_with(&["standard input:3: ", "--wide"])?;
    let wide = tool(&["assemble", "--wide"], text).quiet(0)?.output;
    equal(wide.len(), 19)?;
    // Without --wide that tape is malformed where its second call begins.
    let text = tool(&["disassemble"], &wide).ended(2)?;
    equal(text.text().as_str(), "vmalloc 1\nbytes 15 00 00 00 00 c0 ff ff ff 00\n")?;
    holds(text.errors.contains("malformed from byte 9 on"), &text.errors)
}

fn board() -> Result<(), String> {
    let run = tool(&["assemble"], b"board frames=64\nvmalloc 1\n").ended(0)?;
    equal(run.output.len(), 9)?;
    holds(run.errors.contains("board"), "a word on the board")
}

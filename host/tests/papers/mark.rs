//! `paper mark`: right answers in any form that is let pass, and each kind of wrong ones.

use crate::draw::some_calls;
use crate::options::Options;
use crate::report::{equal, equal_at, holds, Checked, Report};
use crate::run::{tool, Room, Run};
use calls::tape::{KINDS, WIDE_KINDS};
use calls::text::{self, Paper};
use calls::Random;

pub fn check(options: &Options, room: &Room, report: &mut Report) {
    report.check("mark: an example", example(room));
    report.tell("mark: right answers", right(options, room));
    report.tell("mark: right answers as people write them", lenient(options, room));
    report.tell("mark: one line is wrong", one_wrong(options, room));
    report.tell("mark: lines are missing or surplus", missing(options, room));
    report.check("mark: shifted lines, and wrong ones besides", shifted());
    report.tell("mark: what is wrong in some places does not spoil others", edited(options, room));
    report.check("mark: long sheets", long(room));
    report.check("mark: values left out, and colons", short_forms(room));
    report.check("mark: against a key instead of a paper", by_key(room));
    report.check("mark: every seat by the one key", one_key(room));
    report.check("mark: releases that the one key has not", other_releases(room));
    report.check("mark: keys that are none", no_keys(room));
    report.check("mark: wrong command lines", wrong(room));
}

const PAPER: &str =
    "vmalloc 1\nmmap 5000 prot=w\nvfree 0xffffffc000001000\ntranslate 0xffffffc000000010\n";
const KEY: &str = "1 0 ffffffc000000000\n3 0 0000100000000000\n2 16 0000000000000000\n\
                   6 0 0000000000101010\nframes 10\n";

/// Marks answers against the paper of the file.
fn mark(paper: &str, answers: &str, more: &[&str]) -> Run {
    tool(&[&["mark", paper, "-"], more].concat(), answers.as_bytes())
}

fn example(room: &Room) -> Result<(), String> {
    let paper = room.file("paper.txt", PAPER)?;
    equal(tool(&["key", &paper], &[]).quiet(0)?.text().as_str(), KEY)?;
    equal(mark(&paper, KEY, &[]).quiet(0)?.text().as_str(), "all 5 lines right\n")?;
    let answers = KEY.replace("2 16", "2 0").replace("101010", "101011");
    let run = mark(&paper, &answers, &[]).quiet(3)?.text();
    let lines: Vec<&str> = run.lines().collect();
    equal(lines.len(), 3)?;
    for (line, words) in [
        (
            0,
            &[
                "line 3",
                "vfree 0xffffffc000001000",
                "`2 0 0000000000000000`",
                "`2 16 0000000000000000`",
            ][..],
        ),
        (1, &["line 4", "translate 0xffffffc000000010", "0000000000101011", "0000000000101010"]),
        (2, &["3 of 5 lines right", "call 3: vfree 0xffffffc000001000"]),
    ] {
        for words in words {
            holds(lines[line].contains(words), &format!("`{words}` in `{}`", lines[line]))?;
        }
    }
    let explained = mark(&paper, &answers, &["--explain"]).quiet(3)?.text();
    holds(explained.contains("16 REGION_NOT_FOUND"), &explained)
}

/// A paper in a file of the room, and its key's lines.
fn paper(random: &mut Random, room: &Room) -> Result<(String, Vec<String>), String> {
    let count = 1 + random.below(30);
    let kinds = random.one_of(&[KINDS, WIDE_KINDS]);
    let calls = some_calls(random, count, kinds)?;
    let name = room.file("paper.txt", text::print(&Paper { calls, ..Paper::default() }))?;
    let key = tool(&["key", &name], &[]).quiet(0)?.text();
    Ok((name, key.lines().map(str::to_string).collect()))
}

fn right(options: &Options, room: &Room) -> Checked {
    for i in 0..options.amount {
        let (name, key) = paper(&mut options.nth(41, i), room)?;
        let run = mark(&name, &(key.join("\n") + "\n"), &[]).quiet(0)?.text();
        equal(run, format!("all {} lines right\n", key.len()))?;
    }
    Ok(options.amount)
}

/// A right line in another form.
fn otherwise(random: &mut Random, line: &str) -> String {
    let mut words: Vec<String> = line.split(' ').map(str::to_string).collect();
    if let [_, number, value] = words.as_mut_slice() {
        let refused = number != "0";
        let short = value.trim_start_matches('0').to_string();
        let short = if short.is_empty() { "0".to_string() } else { short };
        match random.below(5) {
            0 => *value = value.to_uppercase(),
            1 => *value = short,
            2 => *value = format!("0x{short}"),
            3 if refused => drop(words.pop()),
            _ => {}
        }
    } else if random.chance(1, 3) {
        words[0] = words[0].to_uppercase();
    }
    let before = random.one_of(&["", "", "\n", "# so\n", "  ", "\t"]);
    let behind = random.one_of(&["", "", "  ", " # sure", "\r"]);
    before.to_string() + &words.join(random.one_of(&[" ", " ", "  ", "\t"])) + behind + "\n"
}

fn lenient(options: &Options, room: &Room) -> Checked {
    for i in 0..options.amount {
        let mut random = options.nth(42, i);
        let (name, key) = paper(&mut random, room)?;
        let answers: String = key.iter().map(|line| otherwise(&mut random, line)).collect();
        let run = mark(&name, &answers, &[]).quiet(0).map_err(|why| format!("{why}: {answers}"))?;
        equal_at(&answers, run.text(), format!("all {} lines right\n", key.len()))?;
    }
    Ok(options.amount)
}

/// A line that is not the right one.
fn spoilt(random: &mut Random, line: &str) -> String {
    let words: Vec<&str> = line.split(' ').collect();
    match (words.as_slice(), random.below(5)) {
        ([kind, number, value], 0) => {
            format!("{kind} {} {value}", if *number == "3" { 4 } else { 3 })
        }
        ([kind, number, value], 1) => {
            let other = if value.ends_with('1') { '2' } else { '1' };
            format!("{kind} {number} {}{other}", &value[..15])
        }
        ([kind, number, value], 2) => {
            format!("{} {number} {value}", if *kind == "1" { 2 } else { 1 })
        }
        ([_, _, _], 3) => "I do not know".to_string(),
        ([_, _, _], _) => format!("{line} 0"),
        _ => "frames 9999".to_string(),
    }
}

fn one_wrong(options: &Options, room: &Room) -> Checked {
    for i in 0..2 * options.amount {
        let mut random = options.nth(43, i);
        let (name, key) = paper(&mut random, room)?;
        let at = random.below(key.len() as u64) as usize;
        let mut answers = key.clone();
        answers[at] = spoilt(&mut random, &key[at]);
        let run = mark(&name, &answers.join("\n"), &[]).quiet(3)?.text();
        let lines: Vec<&str> = run.lines().collect();
        equal_at(&run, lines.len(), 2)?;
        let (line, lines_right) = (at + 1, key.len() - 1);
        holds(lines[0].starts_with(&format!("line {line}, ")), &run)?;
        holds(lines[0].contains(&format!("`{}`", key[at])), &run)?;
        holds(
            lines[1].starts_with(&format!("{lines_right} of {} lines right; ", key.len())),
            &run,
        )?;
        let last = at + 1 == key.len();
        holds(last || lines[1].contains(&format!("part is call {line}: ")), &run)?;
    }
    Ok(2 * options.amount)
}

fn missing(options: &Options, room: &Room) -> Checked {
    for i in 0..options.amount {
        let mut random = options.nth(44, i);
        let (name, key) = paper(&mut random, room)?;
        // The front of the key alone.
        let front = random.below(key.len() as u64) as usize;
        let run = mark(&name, &key[..front].join("\n"), &[]).quiet(3)?.text();
        equal_at(
            &run,
            run.lines().filter(|line| line.starts_with("missing, ")).count(),
            key.len() - front,
        )?;
        holds(run.contains(&format!("{front} of {} lines right; ", key.len())), &run)?;
        // A line more.
        let more = [&key[..], &["1 0 0".to_string()]].concat();
        let run = mark(&name, &more.join("\n"), &[]).quiet(3)?.text();
        holds(run.contains("surplus"), &run)?;
        holds(run.contains(&format!("{0} of {0} lines right", key.len())), &run)?;
    }
    let name = room.file("paper.txt", PAPER)?;
    let run = mark(&name, "", &[]).quiet(3)?.text();
    equal(run.lines().count(), 6)?;
    holds(run.contains("0 of 5 lines right; "), &run)?;
    Ok(2 * options.amount + 1)
}

/// The paper of the examples whose key has 10 lines.
const RELEASE: &str = "examples/release.txt";

/// That marking tells these lines, among which `..` stands for whatever does.
fn tells(run: Run, status: u8, wanted: &[&str]) -> Result<(), String> {
    let text = run.quiet(status)?.text();
    equal_at(&text, text.lines().count(), wanted.len())?;
    for (line, wanted) in text.lines().zip(wanted) {
        let (begin, end) = wanted.split_once("..").unwrap_or((wanted, ""));
        let whole = wanted.contains("..") || line == *wanted;
        holds(
            whole && line.starts_with(begin) && line.ends_with(end),
            &format!("{wanted}: {line}"),
        )?;
    }
    Ok(())
}

/// The lines of a paper's key.
fn key_of(paper: &str) -> Result<Vec<String>, String> {
    let key = tool(&["key", paper], &[]).quiet(0)?.text();
    Ok(key.lines().map(str::to_string).collect())
}

fn shifted() -> Result<(), String> {
    let key = key_of(RELEASE)?;
    equal(key.len(), 10)?;
    // The second line is left out, and the last call is wrong.
    let mut answers = key.clone();
    answers[8] = "1 0 1".to_string();
    answers.remove(1);
    let missing =
        "missing, call 2: vmalloc 5000: nothing is written, right is `1 0 ffffffc000001000`";
    let end = "8 of 10 lines right; the first call at which they part is call 2: vmalloc 5000";
    tells(
        mark(RELEASE, &answers.join("\n"), &[]),
        3,
        &[missing, "line 8, call 9: vmalloc 4096: written `1 0 1`, right is ..", end],
    )?;
    // Two lines of a heading, and one call wrong.
    let mut answers = key.clone();
    answers[2] = "3 0 77".to_string();
    let heading = ["Name: A. Candidate".to_string(), "Seat 7".to_string()];
    tells(
        mark(RELEASE, &[&heading[..], &answers].concat().join("\n"), &[]),
        3,
        &[
            "line 1: `Name: A. Candidate` is surplus",
            "line 2: `Seat 7` is surplus",
            "line 5, call 3: mmap 5000 prot=rw: written `3 0 77`, right is ..",
            "9 of 10 lines right; the first call at which they part is call 3: ..",
        ],
    )?;
    // More that cannot be read than is right.
    let answers = [&heading[..], &heading, &key[1..2]].concat().join("\n");
    let (surplus, missing) = (["line .. is surplus"; 3], ["missing, .."; 8]);
    let wanted = [&["line 1, call 1: .."][..], &surplus, &missing, &["1 of 10 lines right; .."]];
    tells(mark(RELEASE, &answers, &[]), 3, &wanted.concat())
}

/// Some lines spoilt, some left out, some put in: no more lines are wrong than were touched.
fn edited(options: &Options, room: &Room) -> Checked {
    for i in 0..2 * options.amount {
        let mut random = options.nth(45, i);
        let (name, key) = paper(&mut random, room)?;
        let mut answers = Vec::new();
        let mut touched = 0;
        for line in &key[..key.len() - 1] {
            let change = random.below(12);
            touched += usize::from(change < 2);
            match change {
                0 => answers.push(spoilt(&mut random, line)),
                1 => {}
                2 => answers.extend(["so be it".to_string(), line.clone()]),
                _ => answers.push(line.clone()),
            }
        }
        answers.push(key[key.len() - 1].clone());
        let run = mark(&name, &answers.join("\n"), &[]).text();
        let last = run.lines().last().unwrap_or_default();
        let right = match last.split_once(" of ") {
            Some((right, _)) => right.parse().map_err(|_| run.clone())?,
            None => key.len(),
        };
        holds(right + touched >= key.len(), &format!("{right} right, {touched} touched: {run}"))?;
    }
    Ok(2 * options.amount)
}

fn long(room: &Room) -> Result<(), String> {
    let count: usize = 20_000;
    let lines: Vec<String> = (0..count).map(|at| format!("1 0 {at:x}")).collect();
    let key = room.file("key.txt", lines.join("\n"))?;
    let marked = |answers: &[String]| {
        let answers = answers.join("\n");
        tool(&["mark", "--key", &key, "-"], answers.as_bytes()).quiet(3).map(|run| run.text())
    };
    // Shifted by a line from the second to the last, which is wrong.
    let mut answers = lines.clone();
    answers[count - 1] = "1 7".to_string();
    answers.remove(1);
    let text = marked(&answers)?;
    holds(text.contains(&format!("{} of {count} lines right; ", count - 2)), &text)?;
    // Shifted by so many that only what agrees at both ends is right.
    let answers = [&lines[..2], &lines[10_000..count - 1], &["1 7".to_string()]].concat();
    let text = marked(&answers)?;
    holds(text.contains(&format!("2 of {count} lines right; ")), "only the front right")
}

fn short_forms(room: &Room) -> Result<(), String> {
    let key = key_of(RELEASE)?;
    let all = "all 10 lines right\n";
    let short: Vec<String> = key.iter().map(|line| line.replace(" 0000000000000000", "")).collect();
    holds(short.contains(&"2 0".to_string()), "a met call without a value")?;
    equal(mark(RELEASE, &short.join("\n"), &[]).quiet(0)?.text().as_str(), all)?;
    for colon in ["frames: ", "Frames:", "frames : ", "FRAMES :"] {
        let answers = key.join("\n").replace("frames ", colon);
        equal_at(colon, mark(RELEASE, &answers, &[]).quiet(0)?.text().as_str(), all)?;
    }
    let answers = key.join("\n").replace("frames ", "frames");
    holds(mark(RELEASE, &answers, &[]).quiet(3)?.text().contains("9 of 10"), "frames13 wrong")?;
    // A value that is not 0 must be there.
    let run = mark(RELEASE, &key.join("\n").replace(" 0000100000000000", ""), &[]);
    tells(run, 3, &["line 3, call 3: ..", "9 of 10 lines right; .."])?;
    let tape = room.file("paper.tape", [2, 0, 0, 0, 0, 0, 0, 0, 0, 99])?;
    let answers = "2 16\ntape: 9\nframes: 1\n";
    equal(mark(&tape, answers, &[]).quiet(0)?.text().as_str(), "all 3 lines right\n")
}

/// Seats of the example in the room: the path of the key.
fn seated(room: &Room) -> Result<String, String> {
    room.clear("room");
    tool(&["seats", RELEASE, "--seats", "8", "--out", &room.path("room")], &[]).quiet(0)?;
    Ok(room.path("room/key.txt"))
}

fn one_key(room: &Room) -> Result<(), String> {
    let key = seated(room)?;
    let text = room.text("room/key.txt")?;
    holds(text.contains("\nreleases 4: vfree 2, munmap 2\n"), &text)?;
    holds(text.lines().all(|line| line.chars().count() <= 100), "lines of at most 100 columns")?;
    let (_, end) = text.split_once("# The end, on every seat:\n").ok_or("no end")?;
    let (first, board) = end.split_once('\n').ok_or("no board")?;
    holds(first.starts_with("frames "), first)?;
    holds(board.lines().all(|line| line.starts_with('#')), board)?;
    holds(board.contains("# mmap list: empty\n"), board)?;
    for seat in 1..=8 {
        let answers = key_of(&room.path(&format!("room/seat-{seat:04}.txt")))?.join("\n");
        let run = tool(&["mark", "--key", &key, "-"], answers.as_bytes()).quiet(0)?;
        equal_at(seat, run.text().as_str(), "all 14 lines right\n")?;
    }
    Ok(())
}

/// What is told at last where one release is wrong and no call is.
const WRONG_RELEASE: &str = "13 of 14 lines right; every call before the releases is right";

fn other_releases(room: &Room) -> Result<(), String> {
    let key = seated(room)?;
    let calls = key_of(RELEASE)?[..9].join("\n");
    let frames = key_of(&room.path("room/seat-0001.txt"))?.pop().unwrap_or_default();
    for (releases, wanted) in [
        ("2 0\n4 0\n2 0\n4 0", &["all 14 lines right"][..]),
        (
            "2 0\n4 0\n2 0\n2 0",
            &[
                "line 13, a release: written `2 0`, right is `4 0 0000000000000000`",
                "3 vfrees where the key has 2",
                "1 munmap where the key has 2",
                WRONG_RELEASE,
            ],
        ),
        (
            "2 0\n2 16\n4 0\n4 0",
            &[
                "line 11, a release: written `2 16`, right is `2 0 0000000000000000`",
                "1 vfree where the key has 2",
                WRONG_RELEASE,
            ],
        ),
        (
            "4 0\n2 0\n4 0",
            &[
                "missing, 1 of the releases: nothing is written",
                "1 vfree where the key has 2",
                WRONG_RELEASE,
            ],
        ),
        (
            "4 0\n2 0\n2 0\n2 0\n4 0",
            &[
                "line 13: `2 0` is surplus",
                "3 vfrees where the key has 2",
                "14 of 14 lines right; surplus lines: 1",
            ],
        ),
    ] {
        let answers = format!("{calls}\n{releases}\n{frames}\n");
        let run = tool(&["mark", "--key", &key, "-"], answers.as_bytes()).text();
        equal_at(&run, &run.lines().collect::<Vec<_>>()[..], wanted)?;
    }
    Ok(())
}

fn no_keys(room: &Room) -> Result<(), String> {
    for (key, why) in [
        ("releases 4: vfree 2, munmap 1\n", ":1: `releases 4: vfree 2, munmap 1` is no line"),
        ("releases 1: vfree 1, munmap 0\n1 0 0\n", ":2: `1 0 0` stands behind"),
        ("frames 3\nframes 3\n", ":2: `frames 3` stands behind"),
        ("releases 9999999: vfree 9999999, munmap 0\n", "more releases than a paper"),
        ("releases 18446744073709551616: vfree 1, munmap 0\n", "no line of a key"),
        ("releases 0: vfree 18446744073709551615, munmap 1\n", "no line of a key"),
    ] {
        let name = room.file("none.txt", key)?;
        tool(&["mark", "--key", &name, "-"], b"1 0 0\n").failed_with(&[why])?;
    }
    Ok(())
}

fn by_key(room: &Room) -> Result<(), String> {
    let key = room.file("key.txt", KEY)?;
    let run = tool(&["mark", "--key", &key, "-"], KEY.as_bytes()).quiet(0)?;
    equal(run.text().as_str(), "all 5 lines right\n")?;
    let run =
        tool(&["mark", "--key", &key, "-"], KEY.replace("6 0", "6 14").as_bytes()).quiet(3)?;
    holds(run.text().contains("line 4, call 4"), &run.text())?;
    let none = room.file("none.txt", "# nothing\n")?;
    tool(&["mark", "--key", &none, "-"], KEY.as_bytes()).failed_with(&["none.txt"])?;
    let wrong = room.file("none.txt", "1 0 0\nso what\n")?;
    tool(&["mark", "--key", &wrong, "-"], KEY.as_bytes()).failed_with(&[":2: `so what`"]).map(drop)
}

fn wrong(room: &Room) -> Result<(), String> {
    tool(&["mark"], &[]).failed_with(&["needs a paper"])?;
    tool(&["mark", "-"], &[]).failed_with(&["standard input"])?;
    tool(&["mark", "-", "-"], &[]).failed_with(&["standard input"])?;
    let paper = room.file("paper.txt", "vmalloc x\n")?;
    mark(&paper, KEY, &[]).failed_with(&[":1:9: found `x`"])?;
    tool(&["mark", &room.path("nowhere.txt"), "-"], &[]).failed_with(&["nowhere.txt: "]).map(drop)
}

//! `paper key` beside the key program.

use crate::draw::{any_bytes, some_calls, some_tape};
use crate::options::Options;
use crate::process::{self, Input};
use crate::report::{equal, equal_at, holds, Checked, Report};
use crate::run::{tool, LIMIT};
use calls::tape::{self, KINDS, WIDE_KINDS};
use calls::text::{self, Paper};
use calls::Random;
use gadulnos::Refusal;
use std::collections::BTreeSet;
use std::path::Path;
use std::process::{Command, Stdio};

/// The key program.
const KEY: &str = "crates/key/out/key";

pub fn check(options: &Options, report: &mut Report) {
    if Path::new(KEY).exists() {
        report.tell("key: beside the key program, tapes of calls", calls(options));
        report.tell("key: beside the key program, tapes of any bytes", bytes(options));
    } else {
        report.check("key", Err(format!("{KEY} is missing: `host/key.sh` makes it")));
    }
    report.tell("key: the same from a text and from its tape", forms(options));
    report.tell("key: --explain has the key's lines and names each refusal", explained(options));
    report.check("key: boards of other sizes", boards());
}

/// That the tool prints what the key program prints, and ends as `./run` does.
fn beside(bytes: &[u8]) -> Result<(), String> {
    let mut command = Command::new(KEY);
    command.stdout(Stdio::piped());
    let program = process::run(&mut command, Input::Bytes(bytes.to_vec()), None, LIMIT)?;
    let run = tool(&["key", "--tape"], bytes);
    let hex = tape::hex(bytes);
    equal_at(&hex, run.text(), program.stdout)?;
    let malformed = tape::parse(bytes, KINDS).broken.is_some();
    equal_at(&hex, run.status, if malformed { 2 } else { 0 })?;
    equal_at(&hex, run.errors.is_empty(), !malformed)
}

fn calls(options: &Options) -> Checked {
    for i in 0..options.amount {
        let mut random = options.nth(11, i);
        let bytes = some_tape(&mut random, 80, KINDS)?;
        beside(&bytes).map_err(|why| format!("tape {i}: {why}"))?;
    }
    Ok(options.amount)
}

fn bytes(options: &Options) -> Checked {
    for i in 0..options.amount {
        let bytes = any_bytes(&mut options.nth(12, i), 200);
        beside(&bytes).map_err(|why| format!("tape {i}: {why}"))?;
    }
    Ok(options.amount)
}

/// A paper of any calls: as a text, and as a wide tape.
fn paper(random: &mut Random) -> Result<(String, Vec<u8>), String> {
    let count = 1 + random.below(40);
    let calls = some_calls(random, count, WIDE_KINDS)?;
    let bytes = tape::serialise(&calls);
    Ok((text::print(&Paper { calls, ..Paper::default() }), bytes))
}

fn forms(options: &Options) -> Checked {
    for i in 0..options.amount {
        let (text, bytes) = paper(&mut options.nth(13, i))?;
        let of_text = tool(&["key"], text.as_bytes()).quiet(0)?.text();
        let of_tape = tool(&["key", "--wide", "--tape"], &bytes).quiet(0)?.text();
        equal_at(&text, &of_tape, &of_text)?;
        equal_at(&text, of_text.lines().count(), text.lines().count() + 1)?;
    }
    Ok(options.amount)
}

/// Each line begins with the key's; that of a refused call names the refusal. Many refusals have to come.
fn explained(options: &Options) -> Checked {
    let mut seen = BTreeSet::new();
    for i in 0..2 * options.amount {
        let (text, _) = paper(&mut options.nth(14, i))?;
        let key = tool(&["key"], text.as_bytes()).quiet(0)?.text();
        let explained = tool(&["key", "--explain"], text.as_bytes()).quiet(0)?.text();
        equal_at(&text, explained.lines().count(), key.lines().count())?;
        for (long, short) in explained.lines().zip(key.lines()) {
            holds(long.starts_with(short), &format!("`{long}` to begin with `{short}`"))?;
            let number = short.split(' ').nth(1).and_then(|number| number.parse().ok());
            let is_call = short.split(' ').count() == 3;
            if let Some(refusal) = number.and_then(Refusal::of).filter(|_| is_call) {
                let named = format!("{} {}", refusal.number(), refusal.name());
                holds(long.contains(&named), &format!("{named} in `{long}`"))?;
                seen.insert(refusal);
            }
        }
    }
    // 10 no paper leads to, and 20 needs 256 regions or marked pages.
    let wanted = Refusal::ALL.len() - 4;
    holds(seen.len() >= wanted, &format!("{wanted} refusals, seen {seen:?}"))?;
    Ok(2 * options.amount)
}

/// The board of a text's line, of the command line, and of both, which the command line wins.
fn boards() -> Result<(), String> {
    let last = |words: &[&str], text: &str| -> Result<String, String> {
        Ok(tool(words, text.as_bytes()).quiet(0)?.text().lines().last().unwrap_or("").to_string())
    };
    let call = "vmalloc 60000\n";
    equal(last(&["key"], call)?.as_str(), "frames 16")?;
    equal(last(&["key", "--frames", "64"], call)?.as_str(), "frames 19")?;
    equal(last(&["key"], &format!("board frames=64\n{call}"))?.as_str(), "frames 19")?;
    equal(
        last(&["key", "--levels", "5"], &format!("board frames=64\n{call}"))?.as_str(),
        "frames 20",
    )?;
    equal(
        last(&["key", "--frames", "9"], &format!("board frames=64\n{call}"))?.as_str(),
        "frames 9",
    )?;
    tool(&["key", "--frames", "0"], b"").failed_with(&["11 NO_FREE_FRAME"])?;
    tool(&["key", "--levels", "6"], b"").failed_with(&["4 or 5 levels"])?;
    tool(&["key", "--from", "0xfffffffffffff000"], b"").failed_with(&["10 BROKEN_RECORD"])?;
    Ok(())
}

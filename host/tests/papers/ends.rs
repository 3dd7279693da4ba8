//! How the program ends where its streams or files fail, and what it says on a terminal.

use crate::process::{self, terminal, Ended, Input};
use crate::report::{equal, holds, Report};
use crate::run::{process, program, Room, LIMIT, PROGRAM};
use std::fs::File;
use std::io::Read;
use std::path::Path;
use std::process::{Command, Stdio};
use std::sync::mpsc;
use std::thread;
use std::time::Duration;

pub fn check(room: &Room, report: &mut Report) {
    if !Path::new(PROGRAM).exists() {
        return report.check("ends", Err(format!("{PROGRAM} is missing: host/build.sh makes it")));
    }
    report.check("ends: in the program as in this one", whole(room));
    report.check("ends: a reader that goes away", cut(room));
    report.check("ends: a full device", full(room));
    report.check("ends: streams that are closed", closed(room));
    report.check("ends: folders and missing files", missing(room));
    report.check("ends: files that cannot be written", unwritable(room));
    report.check("ends: odd standard inputs", odd_inputs());
    report.check("ends: words that are no text", no_text());
    report.check("ends: progress on a terminal, and none in a pipe", progress(room));
}

/// A paper whose key fills several buffers.
fn long(room: &Room) -> Result<String, String> {
    room.file("long.txt", "vmalloc 0\n".repeat(20_000))
}

/// Verbs that write much, each with its paper.
fn verbs(paper: &str) -> Vec<Vec<&str>> {
    vec![
        vec!["key", paper],
        vec!["key", paper, "--explain"],
        vec!["assemble", paper],
        vec!["new", "--calls", "9000"],
    ]
}

fn whole(room: &Room) -> Result<(), String> {
    let paper = room.file("paper.txt", "vmalloc 1\nmmap 5000\n")?;
    let ended = process(&["key", &paper], &[])?;
    equal((ended.code(), ended.stderr.as_str()), (0, ""))?;
    equal(ended.stdout.as_str(), "1 0 ffffffc000000000\n3 0 0000100000000000\nframes 10\n")?;
    let ended = process(&["key", "-"], b"\x01\x01")?;
    equal((ended.code(), ended.stdout.as_str()), (2, "tape 0\nframes 1\n"))?;
    let ended = process(&["key", "--nothing"], &[])?;
    equal((ended.code(), ended.stdout.as_str()), (1, ""))?;
    let ended = process(&["mark", &paper, "-"], b"1 0 0\n")?;
    equal(ended.code(), 3)?;
    let ended = process(&[], &[])?;
    equal(ended.code(), 1)?;
    holds(ended.stderr.contains("paper VERB"), "what it can do, without a verb")?;
    for words in [&["help"][..], &["--help"], &["help", "calls"], &["help", "numbers"]] {
        equal(process(words, &[])?.code(), 0)?;
    }
    for verb in paper::VERBS {
        let ended = process(&[verb.name, "--help"], &[])?;
        equal((ended.code(), ended.stderr.as_str()), (0, ""))?;
        holds(ended.stdout.contains("Example:\n  paper "), "an example of each verb")?;
    }
    Ok(())
}

/// It ends with status 1 and says nothing: nobody is there who asked.
fn cut(room: &Room) -> Result<(), String> {
    for words in verbs(&long(room)?) {
        let ended = process::run(&mut program(&words), Input::Bytes(Vec::new()), Some(10), LIMIT)?;
        equal((ended.code(), ended.stderr.as_str()), (1, ""))?;
        equal(ended.stdout.len(), 10)?;
    }
    Ok(())
}

fn full(room: &Room) -> Result<(), String> {
    for words in verbs(&long(room)?) {
        let device =
            File::options().write(true).open("/dev/full").map_err(|why| why.to_string())?;
        let mut command = program(&words);
        command.stdout(Stdio::from(device));
        let ended = process::run(&mut command, Input::Bytes(Vec::new()), None, LIMIT)?;
        equal(ended.code(), 1)?;
        equal(
            ended.stderr.as_str(),
            "paper: the output cannot be written: no space left on device\n",
        )?;
    }
    Ok(())
}

/// Runs a line of the shell, in which `$0` is the program and `$1` a paper.
fn shell(line: &str, paper: &str) -> Result<Ended, String> {
    let mut command = Command::new("sh");
    command.args(["-c", line, PROGRAM, paper]).stdout(Stdio::piped());
    process::run(&mut command, Input::Bytes(Vec::new()), None, LIMIT)
}

fn closed(room: &Room) -> Result<(), String> {
    let paper = room.file("paper.txt", "vmalloc 1\n")?;
    let ended = shell("exec \"$0\" key <&-", &paper)?;
    equal(ended.code(), 1)?;
    holds(ended.stderr.starts_with("paper: standard input: "), &ended.stderr)?;
    let ended = shell("exec \"$0\" key \"$1\" <&-", &paper)?;
    equal((ended.code(), ended.stderr.as_str()), (0, ""))?;
    let ended = shell("exec \"$0\" key \"$1\" >&-", &paper)?;
    equal(ended.code(), 1)?;
    holds(ended.stderr.contains("the output cannot be written"), &ended.stderr)?;
    // Nobody can be told: the status alone tells.
    equal(shell("exec \"$0\" key nowhere 2>&-", &paper)?.code(), 1)?;
    equal(shell("exec \"$0\" key \"$1\" 2>&-", &paper)?.code(), 0)
}

fn missing(room: &Room) -> Result<(), String> {
    let folder = room.path("");
    for words in
        [&["key"][..], &["assemble"], &["disassemble"], &["seats", "--seats", "2"], &["mark"]]
    {
        for (name, why) in [(folder.as_str(), "is a directory"), ("nowhere.txt", "no such file")] {
            let ended = process(&[words, &[name]].concat(), &[])?;
            equal((ended.code(), ended.stdout.as_str()), (1, ""))?;
            let told = format!("paper: {name}: {why}");
            holds(ended.stderr.starts_with(&told), &format!("`{told}`, not {}", ended.stderr))?;
        }
    }
    Ok(())
}

fn unwritable(room: &Room) -> Result<(), String> {
    let paper = room.file("paper.txt", "vmalloc 1\n")?;
    let folder = room.path("");
    for (out, why) in [
        (folder.as_str(), "is a directory"),
        ("/dev/full", "no space left on device"),
        ("nowhere/at/all", "no such file or directory"),
    ] {
        for words in [&["assemble", &paper][..], &["new"]] {
            let ended = process(&[words, &["--out", out]].concat(), &[])?;
            equal((ended.code(), ended.stdout.as_str()), (1, ""))?;
            equal(ended.stderr.as_str(), format!("paper: {out}: {why}\n").as_str())?;
        }
    }
    let ended = process(&["seats", &paper, "--seats", "2", "--out", "/dev/null/room"], &[])?;
    equal((ended.code(), ended.stdout.as_str()), (1, ""))?;
    equal(ended.stderr.as_str(), "paper: /dev/null/room: not a directory\n")
}

/// A folder as standard input; and a standard input without an end, which a verb that reads no paper leaves alone.
fn odd_inputs() -> Result<(), String> {
    let folder = File::open("target/host").map_err(|why| why.to_string())?;
    let input = Input::Open(Stdio::from(folder));
    let ended = process::run(&mut program(&["key"]), input, None, LIMIT)?;
    equal((ended.code(), ended.stdout.as_str()), (1, ""))?;
    equal(ended.stderr.as_str(), "paper: standard input: is a directory\n")?;
    let input = Input::Endless(b"vmalloc 1\n".to_vec());
    let ended = process::run(&mut program(&["new", "--calls", "0"]), input, None, LIMIT)?;
    equal((ended.code(), ended.stderr.as_str()), (0, ""))
}

/// Words of a command line that are no UTF-8.
fn no_text() -> Result<(), String> {
    use std::os::unix::ffi::OsStrExt;
    let word = std::ffi::OsStr::from_bytes(b"\xff\xfe\x1b[2J");
    for words in [&[][..], &["key"], &["key", "--frames"]] {
        let mut command = program(words);
        command.arg(word);
        let ended = process::run(&mut command, Input::Bytes(Vec::new()), None, LIMIT)?;
        equal(ended.code(), 1)?;
        holds(!ended.stderr.contains('\u{1b}'), "no control characters")?;
    }
    Ok(())
}

/// What a run writes on a terminal that is its standard error.
fn on_terminal(words: &[&str]) -> Result<String, String> {
    let (mut mine, theirs) = terminal()?;
    let mut command = program(words);
    command.stdin(Stdio::null()).stderr(Stdio::from(theirs));
    let mut child = command.spawn().map_err(|why| why.to_string())?;
    drop(command);
    let (sender, receiver) = mpsc::channel();
    thread::spawn(move || {
        // The end of a terminal that nobody holds any more is an error.
        let (mut text, mut bytes) = (Vec::new(), [0; 4096]);
        while let Ok(count @ 1..) = mine.read(&mut bytes) {
            text.extend_from_slice(&bytes[..count]);
        }
        let _ = sender.send(String::from_utf8_lossy(&text).into_owned());
    });
    let status = child.wait().map_err(|why| why.to_string())?;
    equal(status.code(), Some(0))?;
    receiver.recv_timeout(Duration::from_secs(LIMIT)).map_err(|_| "no end".to_string())
}

fn progress(room: &Room) -> Result<(), String> {
    let paper = room
        .file("paper.txt", "board frames=64\n".to_string() + &"vmalloc 1\nmmap 1\n".repeat(12))?;
    let words = ["seats", &paper, "--seats", "100000"];
    let ended = process(&words, &[])?;
    equal((ended.code(), ended.stderr.as_str()), (0, ""))?;
    let told = on_terminal(&words)?;
    holds(
        told.contains("\rseats ") && told.contains(" of 100000"),
        &format!("progress, not {told:?}"),
    )?;
    holds(told.ends_with("\r"), "its line to be taken away")
}

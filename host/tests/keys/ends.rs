//! How the key program and `./run` end where something fails: no key is cut short in silence.

use crate::process::{run, terminal, Ended, Input};
use crate::report::{equal, holds, Report};
use crate::{key, worked_tape, PROGRAM};
use std::env;
use std::fs::{self, File};
use std::io::Write;
use std::path::{Path, PathBuf};
use std::process::{Command, Stdio};

/// Seconds within which a run must end. `./run` also asks `rt` whether all is proved.
const LIMIT: u64 = 60;
const LIMIT_OF_RUN: u64 = 180;

const UNREAD: &str = "key: the tape could not be read to its end\n";
const UNWRITTEN: &str = "key: the key could not be written whole\n";
const PROVED: &str = "run: the key program is proved\n";

type Outcome = Result<(), String>;

pub fn check(report: &mut Report, long: &[u8]) {
    let trouble = match trouble() {
        Ok(path) => path,
        Err(why) => return report.check("keys: trouble.c", Err(why)),
    };
    let tests = Tests { trouble, long: long.to_vec() };
    report.check("keys: a folder as the tape", tests.folder());
    report.check("keys: standard input is closed", tests.closed_input());
    report.check("keys: reads that fail", tests.failing_reads());
    report.check("keys: short reads and writes", tests.short());
    report.check("keys: writes that fail", tests.failing_writes());
    report.check("keys: a full device", tests.full());
    report.check("keys: a pipe that is closed early", tests.cut());
    report.check("keys: an endless tape", tests.endless());
    report.check("run: tapes that are refused", tests.run_refuses());
    report.check("run: a tape by its name and from standard input", tests.run_whole());
    report.check("run: from a terminal", tests.run_terminal());
    report.check("run: a malformed tape", tests.run_malformed());
    report.check("run: reads and writes that fail", tests.run_fails());
    report.check("run: a pipe that is closed early, an endless tape", tests.run_cut());
    report.check("run: the program is killed, or its last line is lost", tests.run_lost());
}

/// `trouble.c` as a library.
fn trouble() -> Result<PathBuf, String> {
    let library = PathBuf::from("target/host/trouble.so");
    let built = Command::new("cc")
        .args(["-shared", "-fPIC", "-O1", "-Wall", "-Wextra", "-Werror", "-o"])
        .arg(&library)
        .arg("host/tests/keys/trouble.c")
        .output();
    match built {
        Ok(built) if built.status.success() => {
            fs::canonicalize(library).map_err(|why| why.to_string())
        }
        Ok(built) => Err(String::from_utf8_lossy(&built.stderr).into_owned()),
        Err(why) => Err(format!("cc: {why}")),
    }
}

/// What a run wrote, and its end: the start of the key, no last line, a message, status 1.
fn no_key(ended: &Ended, whole: &str, message: &str) -> Outcome {
    holds(whole.starts_with(&ended.stdout), "the start of the key")?;
    holds(ended.stdout.is_empty() || ended.stdout.ends_with('\n'), "whole lines")?;
    holds(!ended.stdout.contains("frames"), "no last line")?;
    equal((ended.code(), ended.stderr.as_str()), (1, message))
}

struct Tests {
    trouble: PathBuf,
    /// A tape whose key fills several buffers.
    long: Vec<u8>,
}

impl Tests {
    fn program(&self) -> Command {
        let mut command = Command::new(PROGRAM);
        command.stdout(Stdio::piped());
        command
    }

    fn troubled(&self, mut command: Command, asked: &[(&str, usize)]) -> Command {
        command.env("LD_PRELOAD", &self.trouble);
        for (name, number) in asked {
            command.env(format!("TROUBLE_{name}"), number.to_string());
        }
        command
    }

    /// A shell's command, with `exec` so that the program is the process that ends.
    fn shell(&self, text: &str) -> Command {
        let mut command = Command::new("sh");
        command.args(["-c", text]).stdout(Stdio::piped());
        command
    }

    fn folder(&self) -> Outcome {
        let folder = File::open("target").map_err(|why| why.to_string())?;
        let ended = run(&mut self.program(), Input::Open(folder.into()), None, LIMIT)?;
        no_key(&ended, "", UNREAD)
    }

    fn closed_input(&self) -> Outcome {
        let mut command = self.shell(&format!("exec {PROGRAM} <&-"));
        let ended = run(&mut command, Input::Open(Stdio::null()), None, LIMIT)?;
        no_key(&ended, "", UNREAD)?;
        let writable = File::create("target/host/only-written").map_err(|why| why.to_string())?;
        let ended = run(&mut self.program(), Input::Open(writable.into()), None, LIMIT)?;
        no_key(&ended, "", UNREAD)
    }

    fn failing_reads(&self) -> Outcome {
        let whole = key(&self.long)?;
        for most in [1, 13, 26, 1000, 40_000, 65_536] {
            for fails in [1, 2, 3, 7] {
                // The last read, at the end of the tape, may fail as well; behind it no other comes.
                if (fails - 1) * most > self.long.len() {
                    continue;
                }
                let asked = [("READ_MOST", most), ("READ_FAILS", fails)];
                let mut command = self.troubled(self.program(), &asked);
                let ended = run(&mut command, Input::Bytes(self.long.clone()), None, LIMIT)?;
                no_key(&ended, &whole, UNREAD).map_err(|why| format!("{asked:?}: {why}"))?;
            }
        }
        Ok(())
    }

    fn short(&self) -> Outcome {
        let whole = key(&self.long)?;
        for asked in [
            ("READ_MOST", 1),
            ("READ_MOST", 25),
            ("READ_MOST", 27),
            ("WRITE_MOST", 7),
            ("WRITE_MOST", 4097),
        ] {
            let mut command = self.troubled(self.program(), &[asked]);
            let ended = run(&mut command, Input::Bytes(self.long.clone()), None, LIMIT)?;
            holds(ended.stdout == whole, &format!("the whole key with {asked:?}"))?;
            equal((ended.code(), ended.stderr.as_str()), (0, ""))?;
        }
        Ok(())
    }

    fn failing_writes(&self) -> Outcome {
        let whole = key(&self.long)?;
        for fails in 1.. {
            let mut command = self.troubled(self.program(), &[("WRITE_FAILS", fails)]);
            let ended = run(&mut command, Input::Bytes(self.long.clone()), None, LIMIT)?;
            if ended.stdout == whole {
                return holds(fails > 2, "a key of more than one write");
            }
            no_key(&ended, &whole, UNWRITTEN).map_err(|why| format!("write {fails}: {why}"))?;
        }
        Ok(())
    }

    fn full(&self) -> Outcome {
        for tape in [worked_tape(), self.long.clone(), vec![7]] {
            let full = File::create("/dev/full").map_err(|why| why.to_string())?;
            let ended = run(self.program().stdout(full), Input::Bytes(tape), None, LIMIT)?;
            equal((ended.code(), ended.stderr.as_str()), (1, UNWRITTEN))?;
        }
        Ok(())
    }

    fn cut(&self) -> Outcome {
        let tape = self.long.repeat(10);
        let whole = key(&tape)?;
        // The program ignores the signal of a closed pipe, as Rust's do, so that the write fails; also where it is started with the signal ignored.
        for text in [format!("exec {PROGRAM}"), format!("trap '' PIPE; exec {PROGRAM}")] {
            let input = Input::Bytes(tape.clone());
            let ended = run(&mut self.shell(&text), input, Some(100), LIMIT)?;
            holds(whole.starts_with(&ended.stdout), "the start of the key")?;
            equal((ended.code(), ended.stderr.as_str()), (1, UNWRITTEN))?;
        }
        Ok(())
    }

    fn endless(&self) -> Outcome {
        let ended =
            run(&mut self.program(), Input::Endless(worked_tape()), Some(1_000_000), LIMIT)?;
        equal((ended.code(), ended.stderr.as_str()), (1, UNWRITTEN))?;
        holds(
            ended.stdout.starts_with(key(&worked_tape())?.trim_end_matches("frames 9\n")),
            "the key's start",
        )?;
        // A malformed call ends the run, however much comes behind it.
        let ended = run(&mut self.program(), Input::Endless(vec![9; 4096]), None, LIMIT)?;
        equal(ended.stdout.as_str(), "tape 0\nframes 1\n")
    }

    // ---- through `./run`

    fn run(&self, words: &[&str]) -> Command {
        let mut command = Command::new("./run");
        command.args(words).stdout(Stdio::piped());
        command
    }

    fn run_refuses(&self) -> Outcome {
        for (words, told) in [
            (&["target/no such tape"][..], "there is no file 'target/no such tape'"),
            (&[""], "there is no file ''"),
            (&["crates"], "'crates' is a directory and no tape"),
            (&["a", "b"], "one tape at a time"),
        ] {
            let ended = run(&mut self.run(words), Input::Bytes(worked_tape()), None, LIMIT)?;
            equal((ended.code(), ended.stdout.as_str()), (1, ""))?;
            holds(ended.stderr.contains(told) && ended.stderr.lines().count() == 1, told)?;
        }
        let closed = [
            ("exec ./run <&-", "standard input is closed"),
            ("exec ./run >&-", "standard output is closed"),
        ];
        for (text, told) in closed {
            let ended = run(&mut self.shell(text), Input::Bytes(worked_tape()), None, LIMIT)?;
            equal((ended.code(), ended.stdout.as_str()), (1, ""))?;
            holds(ended.stderr.contains(told), told)?;
        }
        self.run_without_permission()
    }

    /// A file that may not be read; root may read any, so it is asked for as nobody, where that one may come here.
    /// As nobody, if the tests are run by root, whom no permission stops. The script stands in a folder
    /// that anyone may enter: it refuses such a tape before it looks at its own.
    fn run_without_permission(&self) -> Outcome {
        use std::os::unix::fs::PermissionsExt;
        let allow = |path: &Path, mode: u32| {
            fs::set_permissions(path, fs::Permissions::from_mode(mode))
                .map_err(|why| why.to_string())
        };
        let folder = env::temp_dir().join(format!("gadulnos-{}", std::process::id()));
        let (script, tape) = (folder.join("run"), folder.join("tape"));
        fs::create_dir_all(&folder).map_err(|why| why.to_string())?;
        fs::copy("run", &script).map_err(|why| why.to_string())?;
        fs::write(&tape, worked_tape()).map_err(|why| why.to_string())?;
        allow(&folder, 0o755)?;
        allow(&script, 0o755)?;
        allow(&tape, 0)?;
        let text = format!(
            "nobody='setpriv --reuid=65534 --regid=65534 --clear-groups'; [ \"$(id -u)\" = 0 ] || nobody=; \
             exec $nobody {} {}",
            script.display(),
            tape.display()
        );
        let ended = run(&mut self.shell(&text), Input::Bytes(Vec::new()), None, LIMIT);
        let _ = fs::remove_dir_all(&folder);
        let ended = ended?;
        equal((ended.code(), ended.stdout.as_str()), (1, ""))?;
        holds(ended.stderr.contains("may not be read"), "that the tape may not be read")
    }

    fn run_whole(&self) -> Outcome {
        let tape = worked_tape();
        let whole = key(&tape)?;
        fs::write("target/host/tape", &tape).map_err(|why| why.to_string())?;
        let open =
            || File::open("target/host/tape").map(Stdio::from).map_err(|why| why.to_string());
        let mut elsewhere = Command::new("../../run");
        elsewhere.arg("tape").current_dir("target/host").stdout(Stdio::piped());
        for (mut command, input) in [
            (self.run(&["target/host/tape"]), Input::Bytes(Vec::new())),
            (elsewhere, Input::Open(Stdio::null())),
            (self.run(&["-"]), Input::Bytes(tape.clone())),
            (self.run(&[]), Input::Open(open()?)),
        ] {
            let ended = run(&mut command, input, None, LIMIT_OF_RUN)?;
            equal((ended.code(), ended.stdout.as_str()), (0, whole.as_str()))?;
            equal(ended.stderr.as_str(), PROVED)?;
        }
        let long = key(&self.long)?;
        let ended = run(&mut self.run(&[]), Input::Bytes(self.long.clone()), None, LIMIT_OF_RUN)?;
        holds((ended.code(), &ended.stdout) == (0, &long), "a long key")
    }

    fn run_terminal(&self) -> Outcome {
        let (mut mine, theirs) = terminal()?;
        // An unknown kind, a line's end, and the sign that a terminal's input is at its end.
        mine.write_all(b"x\n\x04").map_err(|why| why.to_string())?;
        let ended = run(&mut self.run(&[]), Input::Open(theirs.into()), None, LIMIT_OF_RUN)?;
        equal((ended.code(), ended.stdout.as_str()), (2, "tape 0\nframes 1\n"))
    }

    fn run_malformed(&self) -> Outcome {
        let tape = [&worked_tape()[..], &[1, 2, 3]].concat();
        let ended = run(&mut self.run(&[]), Input::Bytes(tape.clone()), None, LIMIT_OF_RUN)?;
        equal((ended.code(), ended.stdout), (2, key(&tape)?))?;
        equal(ended.stderr.as_str(), PROVED)
    }

    fn run_fails(&self) -> Outcome {
        let folder = File::open("target").map_err(|why| why.to_string())?;
        let ended = run(&mut self.run(&[]), Input::Open(folder.into()), None, LIMIT_OF_RUN)?;
        equal((ended.code(), ended.stdout.as_str()), (1, ""))?;
        holds(ended.stderr.contains(UNREAD), "a message")?;
        for asked in
            [[("READ_MOST", 1000), ("READ_FAILS", 9)], [("WRITE_MOST", 5000), ("WRITE_FAILS", 2)]]
        {
            let mut command = self.troubled(self.run(&[]), &asked);
            let ended = run(&mut command, Input::Bytes(self.long.clone()), None, LIMIT_OF_RUN)?;
            holds(
                ended.code() == 1 && !ended.stdout.contains("frames"),
                "status 1 and no last line",
            )?;
            holds(
                ended.stderr.contains("key: ")
                    && ended.stderr.contains("run: the key is not whole"),
                "a message",
            )?;
        }
        let full = File::create("/dev/full").map_err(|why| why.to_string())?;
        let ended =
            run(self.run(&[]).stdout(full), Input::Bytes(worked_tape()), None, LIMIT_OF_RUN)?;
        holds(
            ended.code() == 1 && ended.stderr.contains("run: the key is not whole"),
            "status 1 on a full device",
        )
    }

    fn run_cut(&self) -> Outcome {
        for input in [Input::Bytes(self.long.repeat(40)), Input::Endless(worked_tape())] {
            let ended = run(&mut self.run(&[]), input, Some(100), LIMIT_OF_RUN)?;
            holds(
                ended.code() != 0 && ended.stderr.contains("run: the key is not whole"),
                "a status that is not 0",
            )?;
        }
        Ok(())
    }

    fn run_lost(&self) -> Outcome {
        let mut command = self.troubled(self.run(&[]), &[("READ_MOST", 1000), ("KILL", 5)]);
        let ended = run(&mut command, Input::Bytes(self.long.clone()), None, LIMIT_OF_RUN)?;
        equal(ended.code(), 128 + 9)?;
        holds(ended.stderr.contains("run: the key is not whole"), "a message")?;
        let mut command = self.troubled(self.run(&[]), &[("WRITE_LOST", 1)]);
        let ended = run(&mut command, Input::Bytes(worked_tape()), None, LIMIT_OF_RUN)?;
        equal((ended.code(), ended.stdout.as_str()), (1, ""))?;
        holds(ended.stderr.contains("its last line is missing"), "a message")
    }
}

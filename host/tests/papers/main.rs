//! The tool `paper`, verb by verb: in this process, and as `target/host/paper` where streams matter. Keys are compared
//! with the key program's, `crates/key/out/key` (`host/key.sh` makes it).
//!
//! Prints `ok NAME` or `FAILED NAME: why` for each check and ends with the two counts. All files that it writes stand
//! in a folder of its own below target/host, which is removed at the end.
//!
//! Usage: papers [--seed S] [--papers N]

mod draw;
mod ends;
mod fuzz;
#[path = "../shared/guard.rs"]
mod guard;
mod json;
mod key;
mod mark;
mod new;
#[path = "../shared/options.rs"]
mod options;
mod page;
#[path = "../shared/port.rs"]
mod port;
#[path = "../keys/process.rs"]
mod process;
#[path = "../shared/report.rs"]
mod report;
mod run;
mod seats;
mod show;
mod text;
mod xml;

use options::Options;
use report::Report;
use run::Room;

fn main() {
    let options = Options::read("papers", "papers", 100);
    guard::watch();
    let mut report = Report::default();
    match Room::open() {
        Ok(room) => check(&options, &room, &mut report),
        Err(why) => report.check("papers", Err(why)),
    }
    report.finish();
}

fn check(options: &Options, room: &Room, report: &mut Report) {
    text::check(options, room, report);
    key::check(options, report);
    show::check(options, room, report);
    mark::check(options, room, report);
    new::check(options, room, report);
    seats::check(options, room, report);
    ends::check(room, report);
    fuzz::check(options, room, report);
}

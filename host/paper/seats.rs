//! `paper seats`: the release paper for many seats. Each gets an order of releases of its own, and one key serves all.

mod check;
mod folder;
mod order;
mod share;
mod sheet;
pub mod theorem;

pub use order::Live;

use crate::options::{usage, Choice, Options, Verb, BOARD, PAPER};
use crate::source::{kinds, offset};
use crate::words::counted;
use crate::{Console, Progress, Source, Status, Trouble};
use calls::Call;
use check::OneKey;
use folder::Folder;
use gadulnos::raw::Told;
use gadulnos::Board;
use order::{Orders, Release};
use share::each_seat;
use sheet::Sheet;
use theorem::{Misfit, Outside};

/// The verb.
pub const SEATS: Verb = Verb {
    name: "seats",
    words: "[PAPER]",
    most_words: 1,
    about: "gives each seat an order of releases of its own, with one key for all seats",
    more: MORE,
    choices: &[CHOICES, PAPER, BOARD],
    example: "paper seats paper.txt --seats 30 --seed 7 --out room",
    run,
};

const MORE: &str = "\
The paper is played, and the regions that it leaves live are put in an order of its own for each
seat. Every seat's run is played too: each release is met and frees the frames of its region, the
board at the end is the same on every seat, every word and record, and no address translates there.

That one key serves every order is a theorem about papers of vmalloc, vfree, mmap and munmap of
which none is turned away with 11 or 13 and no fixed or page-aligned hinted range ends above 2^47,
or 2^56 on five levels (docs/RELEASE.md). Another paper is refused, unless it only reads besides.

With --out the folder has paper.txt and paper.tape, the paper as all seats have it; seat-0001.txt
and seat-0001.tape and so on, the paper and the releases in the seat's order; key.txt, which marks
every seat; orders.csv, each seat's order by the numbers of the regions in the key. Comments of the
paper are left out. Without --out nothing is written.

The same seed gives the same orders for ever; those of the first seats stay where there are more.";

const CHOICES: &[Choice] = &[
    Choice { name: "seats", value: "N", about: "how many seats there are" },
    Choice { name: "seed", value: "S", about: "a number that decides the orders (1)" },
    Choice { name: "out", value: "DIR", about: "the folder to write, made if it is missing" },
    Choice {
        name: "force",
        value: "",
        about: "files of an earlier run in the folder are replaced",
    },
    Choice {
        name: "only",
        value: "text|tape|key",
        about: "of the seats' papers write the texts, the tapes, or none",
    },
    Choice {
        name: "odd-sizes",
        value: "",
        about: "a munmap names any size that rounds to its region's",
    },
    Choice {
        name: "beyond-the-theorem",
        value: "",
        about: "take any paper: equal ends are then tried, not proved",
    },
];

/// The most seats of a run, and the most of which it is told that they differ.
const MOST_SEATS: u64 = 1_000_000;
const MOST_TOLD: usize = 10;

/// Which of the seats' papers are written.
#[derive(Clone, Copy, PartialEq, Eq)]
struct Wanted {
    texts: bool,
    tapes: bool,
}

/// The paper behind its calls.
struct Start {
    board: Board,
    answers: Vec<(Call, Told)>,
    misfits: Vec<Misfit>,
}

fn run(options: &Options, console: &mut Console) -> Result<Status, Trouble> {
    let seats = seats(options)?;
    let seed = options.number("seed")?.unwrap_or(1);
    let (wanted, out) = (wanted(options)?, out(options)?);
    let source = Source::read(options.word(0), options, console)?;
    let start = play(&source)?;
    let proved = admit(&start, &source, options, console)?;
    if let (Some(paper), Some(folder)) = (options.word(0), out) {
        folder::apart(paper, folder)?;
    }
    let folder = out.map(|name| Folder::open(name, options.has("force"))).transpose()?;
    let live = Live::on(&start.board);
    let orders = Orders { live, seed, odd_sizes: options.has("odd-sizes") };
    let one = OneKey::of(&start.board, &orders, proved);
    if !agree(seats, &orders, &one, console)? {
        return Ok(Status::Differs);
    }
    tell(seats, &orders, &one, console)?;
    if let (Some(folder), Some(name)) = (folder, out) {
        let sheet = Sheet::of(&source.paper, kinds(options));
        let key = sheet::key(&source.paper, &start.answers, &orders, &one);
        folder.write("key.txt", key.as_bytes())?;
        folder.write_by("orders.csv", |out| sheet::orders(&orders, seats, out))?;
        fill(&folder, seats, &orders, &sheet, wanted, console)?;
        folder.finish()?;
        writeln!(console.output(), "{}", filled(name, seats, &sheet, wanted))?;
    }
    Ok(Status::Done)
}

fn seats(options: &Options) -> Result<u64, Trouble> {
    match options.number("seats")? {
        None => Err(usage("`paper seats` needs --seats N")),
        Some(seats) if (1..=MOST_SEATS).contains(&seats) => Ok(seats),
        Some(_) => Err(usage(&format!("--seats needs a number from 1 to {MOST_SEATS}"))),
    }
}

fn wanted(options: &Options) -> Result<Wanted, Trouble> {
    match options.value("only") {
        None => Ok(Wanted { texts: true, tapes: true }),
        Some("text") => Ok(Wanted { texts: true, tapes: false }),
        Some("tape") => Ok(Wanted { texts: false, tapes: true }),
        Some("key") => Ok(Wanted { texts: false, tapes: false }),
        Some(other) => {
            Err(usage(&format!("--only needs text, tape or key, and `{other}` is none")))
        }
    }
}

/// The folder to write.
fn out(options: &Options) -> Result<Option<&str>, Trouble> {
    match options.value("out") {
        Some(name @ ("" | "-")) => {
            Err(usage(&format!("--out needs a folder, and `{name}` is none")))
        }
        out => Ok(out),
    }
}

/// Plays the paper.
fn play(source: &Source) -> Result<Start, Trouble> {
    let Source { name, paper, .. } = source;
    if !paper.rest.is_empty() {
        let at = offset(paper);
        let why = format!("{name}: malformed from byte {at} on: no release can follow");
        return Err(Trouble::Said(why));
    }
    let board = crate::board(&paper.board)?;
    let mut start = Start { board, answers: Vec::new(), misfits: Vec::new() };
    for (at, call) in paper.calls.iter().copied().enumerate() {
        let told = start.board.play(&call);
        let why = Outside::of(&call, &told, start.board.levels());
        start.misfits.extend(why.map(|why| Misfit { at, call, why }));
        start.answers.push((call, told));
    }
    Ok(start)
}

/// Whether the theorem is about the paper. One that it is not about is refused, or taken all the same if that is wished.
fn admit(
    start: &Start,
    source: &Source,
    options: &Options,
    console: &mut Console,
) -> Result<bool, Trouble> {
    if start.misfits.is_empty() {
        return Ok(true);
    }
    let told = start.misfits.iter().take(MOST_TOLD);
    let mut lines: Vec<String> =
        told.map(|misfit| misfit.told(&source.name, &source.paper.lines)).collect();
    let more = start.misfits.len().saturating_sub(MOST_TOLD);
    if more > 0 {
        lines.push(format!("and {}", counted(more as u64, "further call")));
    }
    if options.has("beyond-the-theorem") {
        lines.push("beyond the theorem: equal ends are tried, not proved".to_string());
        console.note(&lines.join("\npaper: "))?;
        return Ok(false);
    }
    lines.push(
        "the theorem of the release paper is not about such a paper (docs/RELEASE.md)".into(),
    );
    lines.push("--beyond-the-theorem takes it all the same".to_string());
    Err(Trouble::Said(lines.join("\npaper: ")))
}

/// Plays every seat and tells which differ. Whether none does.
fn agree(
    seats: u64,
    orders: &Orders,
    one: &OneKey,
    console: &mut Console,
) -> Result<bool, Trouble> {
    if let Some(why) = one.end_amiss().filter(|_| one.proved) {
        writeln!(console.output(), "{}: {why}", named(1, orders))?;
        return Ok(false);
    }
    let scratch = || one.end.clone();
    let differs = |board: &mut Board, seat| one.differs(board, seat);
    let (told, count) = each_seat(seats, MOST_TOLD, console, scratch, differs);
    for (seat, why) in &told {
        writeln!(console.output(), "{}: {why}", named(*seat, orders))?;
    }
    if count > 0 {
        writeln!(console.output(), "{} of {seats} differ from the key", counted(count, "seat"))?;
    }
    Ok(count == 0)
}

/// A seat with its order, by the numbers of the regions.
fn named(seat: u64, orders: &Orders) -> String {
    let numbers = orders.of(seat).into_iter().map(|release| format!(" {}", release.region + 1));
    format!("seat {seat}, order{}", numbers.collect::<String>())
}

/// Says what was found.
fn tell(seats: u64, orders: &Orders, one: &OneKey, console: &mut Console) -> Result<(), Trouble> {
    let releases = counted(orders.live.len() as u64, "release");
    let (of, frames) = (counted(seats, "seat"), one.end.allocated_frames());
    writeln!(
        console.output(),
        "{of}, {releases} each: every run ends on the key's board, frames {frames}"
    )?;
    if let Some(count) = orders.count().filter(|count| *count < seats) {
        let count = counted(count, "order");
        writeln!(console.output(), "{releases}, so {count}: some seats share one")?;
    }
    let left = if one.proved { 0 } else { one.pages_left().len() as u64 };
    if left > 0 {
        writeln!(console.output(), "still mapped at the end: {}", counted(left, "page"))?;
    }
    Ok(())
}

/// The name of a seat's files, without the ending.
fn seat_name(seat: u64, seats: u64) -> String {
    let width = seats.to_string().len().max(4);
    format!("seat-{seat:0width$}")
}

/// Writes the paper and what each seat gets.
fn fill(
    folder: &Folder,
    seats: u64,
    orders: &Orders,
    sheet: &Sheet,
    wanted: Wanted,
    console: &mut Console,
) -> Result<(), Trouble> {
    folder.write("paper.txt", sheet.text.as_bytes())?;
    if let Some(tape) = &sheet.tape {
        folder.write("paper.tape", tape)?;
    }
    let mut progress = Progress::new(console, "seats written", seats);
    for seat in 1..=seats {
        let order = orders.of(seat);
        let written = write_seat(folder, &seat_name(seat, seats), seat, &order, sheet, wanted);
        progress.tick(console, seat);
        if let Err(trouble) = written {
            progress.end(console);
            return Err(trouble);
        }
    }
    progress.end(console);
    Ok(())
}

fn write_seat(
    folder: &Folder,
    name: &str,
    seat: u64,
    order: &[Release],
    sheet: &Sheet,
    wanted: Wanted,
) -> Result<(), Trouble> {
    if wanted.texts {
        folder.write(&format!("{name}.txt"), sheet.seat_text(seat, order).as_bytes())?;
    }
    match sheet.seat_tape(order) {
        Some(tape) if wanted.tapes => folder.write(&format!("{name}.tape"), &tape),
        _ => Ok(()),
    }
}

/// What stands in the folder.
fn filled(folder: &str, seats: u64, sheet: &Sheet, wanted: Wanted) -> String {
    let has_tapes = sheet.tape.is_some();
    let (first, last) = (seat_name(1, seats), seat_name(seats, seats));
    let mut names = vec!["key.txt".to_string(), "orders.csv".to_string(), "paper.txt".to_string()];
    names.extend(has_tapes.then(|| "paper.tape".to_string()));
    let of_seats = |ending: &str| match seats {
        1 => format!("{first}.{ending}"),
        _ => format!("{first}.{ending} to {last}.{ending}"),
    };
    names.extend(wanted.texts.then(|| of_seats("txt")));
    names.extend((wanted.tapes && has_tapes).then(|| of_seats("tape")));
    let no_tapes = if has_tapes { "" } else { " (no tapes: a call is none of document 01's tape)" };
    format!("{folder}: {}{no_tapes}", names.join(", "))
}

//! `paper new`: a random paper, for an examiner to start from.

mod draw;
mod met;
mod refused;
mod wish;

use crate::options::{Choice, Options, Verb, BOARD, OUT};
use crate::output::deliver;
use crate::{Console, Status, Trouble};
use calls::text::{self, Paper};
use draw::{Draw, Drawn};
use wish::Wish;

/// The verb.
pub const NEW: Verb = Verb {
    name: "new",
    words: "",
    most_words: 0,
    about: "draws a random paper to start from, within the release paper's conditions",
    more: MORE,
    choices: &[CHOICES, BOARD, OUT],
    example: "paper new --seed 7 --calls 12 --refusals --out paper.txt",
    run,
};

const MORE: &str = "\
A text of vmalloc, vfree, mmap, munmap and translate calls, each drawn with the board before it in
view: sizes of a byte up to several pages, regions at addresses that are fixed, hinted or left open,
releases that leave holes. No call is turned away with 11 or 13 and no range ends above 2^47, or
2^56 on five levels, so that `paper seats` takes the paper; with --faults only if no fault is met,
and the paper's head tells. It fits document 01's tape. Some regions are left live at the end.

The same command gives the same paper. --difficulty stands for choices, to which others may be added:
easy is --calls 6 --plain, middle is --calls 12, hard is --calls 24 --refusals.";

const CHOICES: &[Choice] = &[
    Choice { name: "seed", value: "S", about: "a number that decides the paper (1)" },
    Choice { name: "calls", value: "N", about: "how many calls it has (12)" },
    Choice {
        name: "difficulty",
        value: "easy|middle|hard",
        about: "what these words stand for is said above",
    },
    Choice { name: "plain", value: "", about: "mmaps name no address" },
    Choice { name: "refusals", value: "", about: "about a quarter of the calls are refused" },
    Choice {
        name: "cuts",
        value: "",
        about: "vmallocs that cut a larger region while the list holds 256; 257 calls or more",
    },
    Choice {
        name: "full",
        value: "",
        about: "an mmap that finds 256 regions and is refused with 20; 257 calls or more",
    },
    Choice { name: "faults", value: "", about: "page faults too" },
];

fn run(options: &Options, console: &mut Console) -> Result<Status, Trouble> {
    let wish = Wish::read(options)?;
    let drawn = Draw::start(&wish)?.paper(console)?;
    deliver(print(&wish, &drawn).as_bytes(), options, console)?;
    Ok(Status::Done)
}

/// The text of a paper, with a head from which it can be made again.
fn print(wish: &Wish, drawn: &Drawn) -> String {
    let mut text = head(wish, drawn);
    text += &text::print(&Paper { board: wish.board, ..Paper::default() });
    for part in &drawn.parts {
        if !part.about.is_empty() {
            text += &format!("\n# {}\n", part.about);
        }
        for call in &part.calls {
            text += &text::call(call);
            text.push('\n');
        }
    }
    text
}

/// The comment at the top.
fn head(wish: &Wish, drawn: &Drawn) -> String {
    let refused: u64 = drawn.refused.values().sum();
    let numbers: Vec<String> = drawn.refused.keys().map(u64::to_string).collect();
    let with = match numbers.is_empty() {
        true => "none refused".to_string(),
        false => format!("{refused} refused ({})", numbers.join(", ")),
    };
    let mut text = format!(
        "# {wish}\n# Calls: {}, {with}. Live regions at the end: {}.\n",
        wish.calls, drawn.live
    );
    if drawn.cuts > 0 {
        text += &format!(
            "# Cuts, vmallocs of a part of a larger region while the list holds 256: {}.\n",
            drawn.cuts
        );
    }
    if drawn.faults > 0 {
        let faults = drawn.faults;
        text += &format!(
            "# Faults that are met: {faults}. The theorem of the release paper is not about them, so that\n\
             # `paper seats` takes this paper with --beyond-the-theorem only.\n"
        );
    }
    text
}

//! Plays a list of calls on the port and on what stands beside it, from a fresh board, keeping inside
//! demand 3's conditions: a call that breaks one is left out before it is made.

use crate::account::{is_high, Account};
use crate::beside::{Beside, Foreseen};
use crate::draw::{Draw, Kind};
use crate::guard::Against;
use crate::model::Model;
use crate::port::{self, Port};
use crate::report::{equal, holds};
use crate::seen::Seen;
use calls::{Call, PAGE};
use gadulnos::raw::{Line, Parts, LEVELS};
use rinux::oracle::Board;
use trial::domain::Reason;
use trial::generate::Random;
use trial::state::{State, SLOTS};

/// What both sides start from.
pub struct Setting {
    pub levels: u64,
    pub memory: (u64, u64),
    /// The frames' words before the start.
    pub words: Vec<u64>,
    /// A seed for what the port's records hold before the start, and one for the orders.
    pub rubbish: u64,
    pub orders: u64,
    pub against: Against,
}

impl Setting {
    pub fn draw(random: &mut Random, kind: Kind, levels: u64) -> (Setting, Draw) {
        let mut draw = Draw::new(Random::new(random.word()), kind);
        let memory = draw.memory();
        let frames = (memory.1 / 4096 - memory.0 / 4096 + 1) as usize;
        let words = match random.chance(1, 2) {
            true => vec![0; frames * 512],
            false => (0..frames * 512).map(|_| random.word()).collect(),
        };
        let against = random.one_of(&[Against::Before, Against::Behind]);
        let (rubbish, orders) = (random.word(), random.word());
        (Setting { levels, memory, words, rubbish, orders, against }, draw)
    }

    /// The port's parts before the start, lent as many frames as the board has.
    fn before(&self) -> Parts {
        let lent = ((self.memory.1 - self.memory.0) / PAGE) as usize * 512;
        port::rubbish(&mut Random::new(self.rubbish), &self.words[..lent])
    }

    /// A fresh board of the port's. One of four levels does not name them.
    fn port(&self) -> Result<Port, String> {
        let mut port = port::guarded(&self.before(), self.against);
        let (from, to) = self.memory;
        let line = match self.levels {
            LEVELS => port.start(from, to),
            levels => port.start_levels(from, to, levels),
        };
        equal(line, Line::met(0))?;
        Ok(port)
    }

    /// A fresh board to stand beside it.
    pub fn beside(&self) -> Result<Beside, String> {
        let (from, to) = self.memory;
        if self.levels == LEVELS {
            let fill = |lent: &mut [u64]| lent.copy_from_slice(&self.words[..lent.len()]);
            let rust = Board::start_on(from, to, fill).map_err(|why| format!("{why:?}"))?;
            return Ok(Beside::Rust(rust));
        }
        let mut model = Model::of(&self.before());
        equal(model.start(true, from, to, self.levels), Line::met(0))?;
        Ok(Beside::Model(Box::new(model)))
    }
}

/// Where the calls of a list come from.
pub trait Source {
    fn next(&mut self, state: &State, account: &Account) -> Option<Call>;

    /// Whether the list goes on after a call that was left out.
    fn goes_on(&mut self) -> bool {
        true
    }
}

impl Source for Draw {
    fn next(&mut self, state: &State, account: &Account) -> Option<Call> {
        self.call(state, account)
    }

    fn goes_on(&mut self) -> bool {
        Draw::goes_on(self)
    }
}

impl Source for std::slice::Iter<'_, Call> {
    fn next(&mut self, _: &State, _: &Account) -> Option<Call> {
        Iterator::next(self).copied()
    }
}

/// A list and where it led.
pub struct Played {
    pub port: Port,
    pub beside: Beside,
    pub account: Account,
}

/// Plays what the source gives. The calls made are pushed on `calls`, the last one being the one that
/// differs if there is a difference; of those that were made beside the port `given` has a copy.
pub fn play(
    setting: &Setting,
    source: &mut dyn Source,
    calls: &mut Vec<Call>,
    given: &mut Vec<Call>,
    seen: &mut Seen,
) -> Result<Played, String> {
    let (port, beside) = (setting.port()?, setting.beside()?);
    let mut played = Played { port, beside, account: Account::fresh(setting.levels) };
    played.compare()?;
    while let Some(call) = source.next(&port::state(&played.port)?, &played.account) {
        let foreseen = played.beside.foresee(&port::state(&played.port)?, &call);
        if let Some(why) = left_out(&played, &call, foreseen.turned_away) {
            seen.count(why);
            match source.goes_on() {
                true => continue,
                false => {
                    seen.count("lists cut before such a call");
                    break;
                }
            }
        }
        calls.push(call);
        if foreseen.kept.is_none() {
            given.push(call);
        }
        played.one(&call, &foreseen, seen).map_err(|why| format!("{call}: {why}"))?;
    }
    Ok(played)
}

/// Why a call may not stand in the list, if so: it would be turned away with 11 or 13, or it has a fixed
/// or hinted range that ends above the top and would be met, which a copy of the board tells.
fn left_out(played: &Played, call: &Call, turned_away: Option<u32>) -> Option<&'static str> {
    match turned_away {
        Some(11) => return Some("left out: 11"),
        Some(_) => return Some("left out: 13"),
        None if !is_high(call, played.account.levels) => return None,
        None => {}
    }
    let mut trial = port::guarded(&port::unguarded(&played.port), Against::Behind);
    let met = port::play(&mut trial, call).line.number == 0;
    met.then_some("left out: a range above the top")
}

impl Played {
    /// One call on both, and the account of it.
    fn one(&mut self, call: &Call, foreseen: &Foreseen, seen: &mut Seen) -> Result<(), String> {
        let full = self.account.book.len() == SLOTS;
        let told = port::play(&mut self.port, call);
        let line = told.line;
        holds(line.number != 11 && line.number != 13, "neither 11 nor 13, as was foreseen")?;
        match foreseen.kept {
            None => self.beside.play(call, told)?,
            // The Rust is not given the call: document 01 adds 3 or 20, or uses the exact sum, which no
            // region is found for, and nothing changes.
            Some(Reason::Sum) => {
                let too_large = [3, 15].map(Line::refused).contains(&line);
                holds(too_large, &format!("3 or 15, got {line:x?}"))?;
                seen.count("calls that the Rust was not given, for a sum");
            }
            Some(Reason::Limit) => {
                equal(line, Line::refused(20))?;
                seen.count("calls that the Rust was not given, for a 257th region");
            }
            Some(why) => return Err(format!("outside the domain: {why:?}")),
        }
        let cuts = self.account.cuts;
        self.account.gives_back(call, told)?;
        self.account.note(call, line)?;
        self.compare()?;
        seen.call(call, line.number, &self.account);
        if self.account.cuts > cuts {
            seen.count("cuts at 256");
        }
        if full {
            seen.count("calls at 256 parts");
        }
        let frames = self.port.frames();
        if frames.allocated == frames.total {
            seen.count("calls that leave no frame free");
        }
        Ok(())
    }

    /// That both boards are alike, and as calls and answers tell.
    pub fn compare(&self) -> Result<(), String> {
        let ours = port::state(&self.port).map_err(|part| format!("{part} of the port"))?;
        self.account.check(&ours)?;
        self.beside.compare(&self.port)
    }
}

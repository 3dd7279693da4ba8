//! What stands beside the port: on four levels the Rust, on five, which it has not, the model.

use crate::model::Model;
use crate::port::{self, Port};
use crate::report::{equal, holds};
use calls::Call;
use gadulnos::raw::Told;
use rinux::oracle::Board;
use trial::domain::{self, Reason, Verdict};
use trial::state::State;

pub enum Beside {
    Rust(Board),
    Model(Box<Model>),
}

/// What is known of a call before it is made.
pub struct Foreseen {
    /// Which of 11 and 13 it will be turned away with, if so.
    pub turned_away: Option<u32>,
    /// Why it is not given to the Rust, if so.
    pub kept: Option<Reason>,
}

impl Beside {
    /// The Rust's domain tells, or a copy of the model.
    pub fn foresee(&self, state: &State, call: &Call) -> Foreseen {
        match self {
            Beside::Rust(_) => {
                let domain::Reading { verdict, turned_away, .. } = domain::read(state, call);
                let kept = match verdict {
                    Verdict::Inside | Verdict::Edge => None,
                    Verdict::Outside(reason) => Some(reason),
                };
                Foreseen { turned_away, kept }
            }
            Beside::Model(model) => {
                let number = model.clone().play(call).line.number as u32;
                Foreseen { turned_away: Some(number).filter(|n| [11, 13].contains(n)), kept: None }
            }
        }
    }

    /// Makes a call of which the port told so. The Rust does not say what it found of frames.
    pub fn play(&mut self, call: &Call, told: Told) -> Result<(), String> {
        match self {
            Beside::Rust(rust) => {
                let line = told.line;
                let outcome = rust.play(call);
                let wanted = outcome.key_line(call.kind());
                let number = u32::try_from(line.number).unwrap_or(u32::MAX);
                holds(outcome.agrees(number, line.value), &format!("`{wanted}`, got {line:x?}"))
            }
            Beside::Model(model) => {
                equal(told, model.play(call))?;
                holds(!model.gave_up, "a release that is not too long for the model")
            }
        }
    }

    /// Makes a call again.
    pub fn replay(&mut self, call: &Call) {
        match self {
            Beside::Rust(rust) => drop(rust.play(call)),
            Beside::Model(model) => drop(model.play(call)),
        }
    }

    /// That the port's board is alike, every word and record.
    pub fn compare(&self, port: &Port) -> Result<(), String> {
        match self {
            Beside::Rust(rust) => rust.state().difference(&port::state(port)?).map_or(Ok(()), Err),
            Beside::Model(model) => model.compare(port),
        }
    }

    /// Whether an address does not translate.
    pub fn is_nowhere(&mut self, addr: u64) -> bool {
        let call = Call::Translate { addr };
        match self {
            Beside::Rust(rust) => rust.play(&call).numbers.contains(14),
            Beside::Model(model) => model.play(&call) == Told::refused(14),
        }
    }
}

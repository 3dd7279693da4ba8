//! A sequence from its first mprotect on: it is outside the domain of equality, and the model stands beside the
//! port in the Rust's place.

use crate::found;
use crate::model::Model;
use crate::play::{ask, count, Seen};
use crate::port::{self, Port};
use crate::protected::{self, Asked};
use crate::rare;
use crate::report::equal;
use calls::Call;
use gadulnos::raw::{Line, Parts};
use trial::state::State;

/// Plays the mprotect and the calls that `next` draws behind it, all pushed on `calls`, the last being the one that
/// differs. No call is passed over: the model knows what lies outside the domain.
pub fn play(
    port: &mut Port,
    mprotect: Call,
    calls: &mut Vec<Call>,
    seen: &mut Seen,
    next: &mut dyn FnMut(&State) -> Option<Call>,
) -> Result<(), String> {
    let mut model = Model::of(port);
    let mut drawn = Some(mprotect);
    while let Some(call) = drawn {
        calls.push(call);
        one(port, &mut model, &call, seen).map_err(|why| format!("{call}, the model: {why}"))?;
        if model.gave_up {
            count(seen, "behind an mprotect, a release too long for the model");
            return Ok(());
        }
        drawn = next(&port::state(port)?);
    }
    Ok(())
}

fn one(port: &mut Port, model: &mut Model, call: &Call, seen: &mut Seen) -> Result<(), String> {
    let rare = rare::names(&port::state(port)?, call);
    let before = port::unguarded(port);
    let (told, wanted) = (port::play(port, call), model.play(call));
    let line = told.line;
    equal(line, wanted.line)?;
    for event in found::check(&before, port, call, told)? {
        count(seen, &format!("behind an mprotect, given back: {event}, {}", line.number));
    }
    if model.gave_up {
        return Ok(());
    }
    equal(told, wanted)?;
    model.compare(port)?;
    ask(&port::state(port)?, port, call, seen)?;
    match *call {
        Call::Mprotect { addr, size, prot } => {
            rare.iter().for_each(|name| count(seen, &format!("{name}, {}", line.number)));
            let asked = Asked { addr, size, prot, also: &[] };
            mprotect(&before, port, &asked, line, seen)
        }
        _ => {
            let name = call.shape().name;
            count(seen, &format!("behind an mprotect, {name} {}", line.number));
            Ok(())
        }
    }
}

/// What holds of an mprotect apart from the model.
fn mprotect(
    before: &Parts,
    port: &mut Port,
    asked: &Asked,
    line: Line,
    seen: &mut Seen,
) -> Result<(), String> {
    count(seen, &format!("mprotect {}", line.number));
    for event in protected::check(before, port, asked, line)? {
        count(seen, &format!("mprotect with {event:?}, {}", line.number));
    }
    match line.number {
        0 => protected::again(port, asked),
        _ => Ok(()),
    }
}

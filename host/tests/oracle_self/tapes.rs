//! Tapes, sets of numbers, and the search for a short tape.

use crate::report::{equal, holds, Report};
use calls::{tape, Call, Shape};
use trial::answer::Numbers;
use trial::generate::Random;
use trial::minimise;

pub fn check(report: &mut Report) {
    report.check("tape: calls to bytes and back", calls_and_back());
    report.check("tape: bytes to calls and back", bytes_and_back());
    report.check("tape: unknown kind, short body, other truth byte", broken_tapes());
    report.check("tape: the worked example's bytes", example_bytes());
    report.check("numbers: printed as a set", numbers_printed());
    report.check("minimise: finds the two calls that matter", minimised());
}

fn random_call(random: &mut Random) -> Call {
    let kind = 1 + random.below(20) as u8;
    let fields = Shape::of(kind).map_or(&[][..], |shape| shape.fields);
    let values = fields.iter().map(|&(name, width)| match name {
        "given" | "gigabyte" => random.below(2),
        _ => random.word() >> (64 - 8 * width),
    });
    let values: Vec<u64> = values.collect();
    Call::from_fields(kind, &values).expect("fields of the right widths make a call")
}

fn calls_and_back() -> Result<(), String> {
    let mut random = Random::new(1);
    for _ in 0..500 {
        let calls: Vec<Call> = (0..random.below(30)).map(|_| random_call(&mut random)).collect();
        let tape = tape::parse(&tape::serialise(&calls), 20);
        equal(tape, tape::Tape { calls, broken: None })?;
    }
    Ok(())
}

/// What was read, written again, is the tape up to the broken call.
fn bytes_and_back() -> Result<(), String> {
    let mut random = Random::new(2);
    for _ in 0..2000 {
        let mut bytes: Vec<u8> = (0..random.below(60)).map(|_| random.below(24) as u8).collect();
        let tape = tape::parse(&bytes, 20);
        bytes.truncate(tape.broken.unwrap_or(bytes.len()));
        equal(tape::serialise(&tape.calls), bytes)?;
    }
    Ok(())
}

fn broken_tapes() -> Result<(), String> {
    let vmalloc = tape::serialise(&[Call::Vmalloc { size: 1 }]);
    let after = |rest: &[u8], kinds| tape::parse(&[&vmalloc, rest].concat(), kinds).broken;
    equal(after(&[], 20), None)?;
    equal(after(&[0], 20), Some(9))?;
    equal(after(&[21], 20), Some(9))?;
    equal(after(&[14], 20), None)?;
    equal(after(&[14], 6), Some(9))?;
    equal(after(&[6, 0, 0, 0], 20), Some(9))?;
    let mut other =
        tape::serialise(&[Call::Mmap { given: true, addr: 0, size: 1, prot: 0, flags: 0 }]);
    equal(after(&other, 6), None)?;
    other[1] = 2;
    equal(after(&other, 6), Some(9))
}

fn example_bytes() -> Result<(), String> {
    let calls = [
        Call::Vmalloc { size: 1 },
        Call::Mmap { given: false, addr: 0, size: 5000, prot: 2, flags: -1 },
    ];
    let vmalloc = "010100000000000000";
    let mmap = "03000000000000000000881300000000000002000000ffffffff";
    equal(tape::hex(&tape::serialise(&calls)), format!("{vmalloc}{mmap}"))
}

fn numbers_printed() -> Result<(), String> {
    equal(Numbers::one(11).or(13).to_string().as_str(), "11|13")?;
    equal(Numbers::MET.to_string().as_str(), "0")?;
    holds(Numbers::one(16).contains(16) && !Numbers::one(16).contains(0), "a set of one")
}

/// A difference that needs a vmalloc above 8192 and a later vfree shrinks to just that.
fn minimised() -> Result<(), String> {
    let mut random = Random::new(3);
    let mut calls: Vec<Call> = (0..60).map(|_| random_call(&mut random)).collect();
    calls.insert(20, Call::Vmalloc { size: 0x1234_5678 });
    calls.insert(50, Call::Vfree { addr: 77 });
    let mut differs = |calls: &[Call]| {
        let large =
            calls.iter().position(|call| matches!(call, Call::Vmalloc { size } if *size > 8192));
        let freed = calls.iter().rposition(|call| matches!(call, Call::Vfree { .. }));
        matches!((large, freed), (Some(large), Some(freed)) if large < freed)
    };
    let short = minimise::shortest(&calls, &mut differs);
    equal(short, vec![Call::Vmalloc { size: 8193 }, Call::Vfree { addr: 0 }])
}

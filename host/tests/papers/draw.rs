//! Random calls, tapes and texts.

use crate::guard::Against;
use crate::port;
use calls::{tape, Call, Random};
use gadulnos::{Board, Levels, PhysAddr};
use trial::generate::{Generator, Profile};

/// Document 01's board.
pub fn fresh() -> Result<Board, String> {
    let (from, to) = (PhysAddr::new(0x10_0000), PhysAddr::new(0x11_0000));
    Board::start(from, to, Levels::Four).map_err(|why| why.to_string())
}

/// Calls of kinds 1 to `kinds`, most of them drawn to what stands on document 01's board.
pub fn some_calls(random: &mut Random, count: u64, kinds: u8) -> Result<Vec<Call>, String> {
    let profile = random.one_of(&[Profile::Release, Profile::Faults, Profile::Everything]);
    let mut generator = Generator::new(random.word(), profile);
    let mut board = port::guarded(&fresh()?.into_parts(), Against::Behind);
    port::draw(random, &mut generator, &mut board, count, kinds)
}

/// A tape of such calls; one in three is malformed at its end or in its midst.
pub fn some_tape(random: &mut Random, most: u64, kinds: u8) -> Result<Vec<u8>, String> {
    let count = random.below(most);
    let mut bytes = tape::serialise(&some_calls(random, count, kinds)?);
    let at = random.below(bytes.len() as u64 + 1) as usize;
    match random.below(9) {
        0 => bytes.truncate(at),
        1 => bytes.insert(at, random.word() as u8),
        2 => bytes.extend((0..random.below(40)).map(|_| random.word() as u8)),
        _ => {}
    }
    Ok(bytes)
}

/// Bytes, small ones at times, so that kinds are known ones.
pub fn any_bytes(random: &mut Random, most: u64) -> Vec<u8> {
    let end = random.one_of(&[2, 7, 7, 22, 128, 256]);
    (0..random.below(most)).map(|_| random.below(end) as u8).collect()
}

/// One of some texts.
pub fn pick<'a>(random: &mut Random, of: &[&'a str]) -> &'a str {
    of.get(random.below(of.len() as u64) as usize).copied().unwrap_or_default()
}

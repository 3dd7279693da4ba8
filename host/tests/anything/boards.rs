//! Sound boards that calls have led to, with no Rust beside them, so that they stand anywhere.

use crate::guard::Against;
use crate::port::{self, Port};
use calls::{Call, PAGE};
use gadulnos::raw::{Line, Parts, LEVELS, MOST_LEVELS};
use trial::generate::{Generator, Profile, Random};

/// Frames end at most at this number: addresses have 52 bits.
pub const FRAMES_END: u64 = 1 << 40;

/// A board, and calls that are drawn to what stands on it.
pub struct Base {
    pub board: Parts,
    pub calls: Vec<Call>,
}

/// A number of levels: mostly 4 or 5, else a small one or any.
pub fn any_levels(random: &mut Random) -> u64 {
    let (small, any) = (random.below(8), random.word() >> random.below(64));
    random.one_of(&[LEVELS, LEVELS, MOST_LEVELS, MOST_LEVELS, MOST_LEVELS, small, small, any])
}

/// A start of so many levels; four are named or not.
fn start(random: &mut Random, port: &mut Port, from: u64, to: u64, levels: u64) -> Line {
    match levels == LEVELS && random.chance(1, 2) {
        true => port.start(from, to),
        false => port.start_levels(from, to, levels),
    }
}

/// A board of 1 to 64 frames, seldom of 300, of four or five levels, after up to 30 calls of any kind.
pub fn base(random: &mut Random) -> Result<Base, String> {
    let total = random.one_of(&[1, 2, 3, 5, 8, 16, 16, 33, 64, 64, 300]);
    let highest = FRAMES_END - total;
    let any = random.below(highest);
    let first = random.one_of(&[0, 1, 0x100, 0x1FF, 1 << 35, highest, any]);
    let words: Vec<u64> = match random.chance(1, 2) {
        true => (0..total * 512).map(|_| random.word()).collect(),
        false => vec![0; total as usize * 512],
    };
    let mut port = port::guarded(&port::rubbish(random, &words), Against::Behind);
    let levels = random.one_of(&[LEVELS, MOST_LEVELS]);
    let line = start(random, &mut port, first * PAGE, (first + total) * PAGE, levels);
    if line != Line::met(0) {
        return Err(format!("the start of {total} frames from {first:x}, {levels}: {line:x?}"));
    }
    let profile = random.one_of(&Profile::ALL);
    let mut generator = Generator::new(random.word(), profile);
    for _ in 0..random.below(30) {
        let call = generator.next(&port::state(&port)?);
        port::play(&mut port, &call);
    }
    let mut generator = Generator::new(random.word(), Profile::Everything);
    let state = port::state(&port)?;
    let calls = (0..40).map(|_| generator.next(&state)).collect();
    Ok(Base { board: port::unguarded(&port), calls })
}

pub fn copy(board: &Parts) -> Parts {
    Parts {
        words: board.words.clone(),
        fields: board.fields.clone(),
        bits: board.bits.clone(),
        root: board.root,
        kernel: board.kernel.clone(),
        user: board.user.clone(),
        marked: board.marked.clone(),
    }
}

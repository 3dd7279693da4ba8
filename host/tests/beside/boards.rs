//! The boards that sequences run on, and where their calls are drawn from.

use crate::churn::Churn;
use crate::draw::Draw;
use crate::guard::Against;
use crate::spoil::Spoil;
use calls::{Call, KERNEL_WINDOW, PAGE, TEMPORARY, USER_WINDOW};
use rinux::oracle::Board;
use trial::domain::{self, Verdict};
use trial::generate::{Generator, Perturbed, Profile, Random};
use trial::state::{Region, Slot, State};

/// What a sequence runs on.
#[derive(Clone, Copy, PartialEq, Eq)]
pub enum Kind {
    /// Fresh boards, with the calls of a profile.
    Fresh(Profile),
    /// From a state near one that calls led to, which no calls need lead to.
    Near,
    /// Every frame but a few marked, on boards of up to 8192.
    FewFree,
    /// Lists that are filled to their 256 entries.
    Crowded,
    /// Regions of up to 2^30 bytes, of which few pages are mapped.
    Far,
    /// Thousands of calls on one board.
    Churn,
    /// Copies, at times with the temporary page mapped before.
    Copies,
    /// Regions whose pages are changed before they are released.
    Spoiled,
    /// Calls on the mapper, on boards of 1 to 64 frames anywhere in memory.
    Mapper,
    /// The same from a state near a fresh one.
    MapperNear,
    /// The same on boards of 65 to 8193 frames.
    MapperLarge,
}

impl Kind {
    pub const ALL: [Kind; 15] = [
        Kind::Fresh(Profile::Release),
        Kind::Fresh(Profile::Faults),
        Kind::Fresh(Profile::Frames),
        Kind::Fresh(Profile::Protections),
        Kind::Fresh(Profile::Everything),
        Kind::Near,
        Kind::FewFree,
        Kind::Crowded,
        Kind::Far,
        Kind::Churn,
        Kind::Copies,
        Kind::Mapper,
        Kind::MapperNear,
        Kind::MapperLarge,
        Kind::Spoiled,
    ];

    pub fn name(self) -> String {
        let name = match self {
            Kind::Fresh(profile) => return format!("fresh boards, profile {}", profile.name()),
            Kind::Near => "from states near those that calls lead to",
            Kind::FewFree => "boards of 65 to 8192 frames, few of them free",
            Kind::Crowded => "lists of up to 256 entries",
            Kind::Far => "regions far larger than their frames",
            Kind::Churn => "thousands of calls on one board",
            Kind::Copies => "copies, the temporary page mapped or not",
            Kind::Spoiled => "regions whose pages are changed before they are released",
            Kind::Mapper => "the mapper's calls, 1 to 64 frames anywhere",
            Kind::MapperNear => "the mapper's calls, from states near a fresh one",
            Kind::MapperLarge => "the mapper's calls, 65 to 8193 frames",
        };
        name.to_string()
    }

    /// How many of ten thousand sequences are of this kind.
    fn share(self) -> u64 {
        match self {
            Kind::Fresh(Profile::Frames | Profile::Protections) => 800,
            Kind::Fresh(_) => 2000,
            Kind::Near => 1400,
            Kind::FewFree | Kind::Crowded => 180,
            Kind::Far => 200,
            Kind::Copies => 300,
            Kind::Spoiled => 400,
            Kind::Churn => 12,
            Kind::Mapper => 800,
            Kind::MapperNear => 500,
            Kind::MapperLarge => 100,
        }
    }

    /// How many of a hundred calls lie inside the domain of equality, at the least: the others are passed
    /// over.
    pub fn least_inside(self) -> u64 {
        match self {
            Kind::MapperNear => 45,
            Kind::Near | Kind::Far | Kind::Spoiled => 70,
            Kind::Churn | Kind::Mapper | Kind::MapperLarge => 80,
            _ => 90,
        }
    }

    /// How many of so many sequences are of this kind, at least one.
    pub fn sequences(self, amount: u64) -> u64 {
        (amount * self.share() + 9999) / 10000
    }
}

/// Where calls are drawn from.
pub enum Source {
    Paper(Generator),
    Mapper(Draw),
    Churn(Churn),
    Spoil(Spoil),
    /// At times one of these calls, the last first.
    Mixed(Random, Vec<Call>, Generator),
}

impl Source {
    pub fn next(&mut self, state: &State) -> Call {
        match self {
            Source::Paper(generator) => generator.next(state),
            Source::Mapper(draw) => draw.call(state),
            Source::Churn(churn) => churn.call(state),
            Source::Spoil(spoil) => spoil.call(state),
            Source::Mixed(random, calls, generator) => match random.chance(1, 2) {
                true => calls.pop().unwrap_or_else(|| generator.next(state)),
                false => generator.next(state),
            },
        }
    }
}

/// What both sides start from.
pub struct Setting {
    pub memory: (u64, u64),
    /// The frames' words before the start.
    pub words: Vec<u64>,
    /// What replaces the state that the start leaves: words and records.
    pub near: Option<(Vec<u64>, Perturbed)>,
    /// A seed for what the port's records hold before the start.
    pub rubbish: u64,
    pub against: Against,
    /// Whether an mprotect is made, from which on the sequence is outside the domain; else it is passed over.
    pub protects: bool,
}

/// A setting of a kind, the source of its calls, and how many to draw.
pub fn settle(random: &mut Random, kind: Kind) -> Result<(Setting, Source, usize), String> {
    let (mut generator, memory) = generator_and_memory(random, kind);
    let mut words = Vec::new();
    let board = Board::start_on(memory.0, memory.1, |lent| {
        generator.fill(lent);
        words = lent.to_vec();
    });
    let mut board = board.map_err(|why| format!("{memory:x?}: {why:?}"))?;
    let mut length = generator.length();
    let protects = kind == Kind::Fresh(Profile::Protections) || random.chance(1, 4);
    let mut calls = Vec::new();
    let near = match kind {
        Kind::Far => Some(far(random, &mut generator, &mut board, &mut calls, protects)),
        Kind::Near => Some(near(&mut generator, &mut board, length / 3)),
        Kind::MapperNear => Some(near(&mut generator, &mut board, 0)),
        Kind::FewFree => Some(few_free(random, &board)),
        _ => None,
    };
    let source = match kind {
        Kind::Mapper | Kind::MapperNear | Kind::MapperLarge => {
            length = 20 + random.below(60) as usize;
            Source::Mapper(Draw::new(Random::new(random.word())))
        }
        Kind::Churn => {
            length = 2000 + random.below(2000) as usize;
            Source::Churn(Churn::new(Random::new(random.word())))
        }
        Kind::Spoiled => {
            length = 40 + random.below(60) as usize;
            Source::Spoil(Spoil::new(Random::new(random.word()), generator))
        }
        Kind::Far | Kind::Copies => {
            if kind == Kind::Copies {
                calls = copies(random);
            }
            length = 3 * calls.len() + random.below(6) as usize;
            Source::Mixed(Random::new(random.word()), calls, generator)
        }
        _ => Source::Paper(generator),
    };
    let against = random.one_of(&[Against::Before, Against::Behind]);
    let rubbish = random.word();
    Ok((Setting { memory, words, near, rubbish, against, protects }, source, length))
}

fn generator_and_memory(random: &mut Random, kind: Kind) -> (Generator, (u64, u64)) {
    let seed = random.word();
    let mut generator = match kind {
        Kind::Fresh(profile) => Generator::new(seed, profile),
        Kind::Crowded => Generator::crowded(seed),
        Kind::Far => Generator::new(seed, Profile::Release),
        Kind::Copies => Generator::new(seed, Profile::Faults),
        _ => Generator::new(seed, Profile::Everything),
    };
    let memory = match kind {
        Kind::Fresh(_) | Kind::Near | Kind::Crowded | Kind::Far => generator.board(),
        Kind::Copies | Kind::Spoiled => anywhere(random, 16, 64),
        Kind::Churn => anywhere(random, 100, 300),
        Kind::FewFree => anywhere(random, 65, 8192),
        Kind::Mapper | Kind::MapperNear => anywhere(random, 1, 64),
        Kind::MapperLarge => anywhere(random, 65, 8193),
    };
    (generator, memory)
}

/// A memory of so many frames, few more often than many. Some starts let a 1 GiB or 2 MiB entry point
/// into the lent frames.
fn anywhere(random: &mut Random, least: u64, most: u64) -> (u64, u64) {
    let more = (most - least) >> random.below(8);
    let frames = match random.below(20) {
        0 => least,
        1 => most,
        _ => least + random.below(more + 1),
    };
    let before = random.below(frames.min(8)) * PAGE;
    let start = match random.below(6) {
        0 | 1 => 0x10_0000,
        2 => 0x20_0000 - before,
        3 => 0x4000_0000 - before,
        4 => 0x1_0000_0000 + random.below(1 << 16) * PAGE,
        _ => (1 << 45) + random.below(1 << 20) * PAGE,
    };
    let start = start + if random.chance(1, 4) { random.below(PAGE) } else { 0 };
    (start, start + frames * PAGE)
}

fn play(generator: &mut Generator, board: &mut Board, calls: usize) {
    for _ in 0..calls {
        let call = generator.next(&board.state());
        if domain::read(&board.state(), &call).verdict == Verdict::Inside {
            board.play(&call);
        }
    }
}

/// The records of a state.
fn parts_of(state: &State) -> Perturbed {
    Perturbed {
        words: Vec::new(),
        bitmap: state.bitmap,
        allocated: state.marked_frames(),
        root: state.root,
        slots: state.vmalloc().to_vec(),
        regions: state.regions.clone(),
        next_addr: state.next_addr,
        marked: state.marked.clone(),
    }
}

/// A state near the one that some calls lead to.
fn near(generator: &mut Generator, board: &mut Board, calls: usize) -> (Vec<u64>, Perturbed) {
    play(generator, board, calls);
    let parts = generator.perturb(&board.state());
    (board.words().to_vec(), parts)
}

/// Every frame marked but up to a dozen, never the root.
fn few_free(random: &mut Random, board: &Board) -> (Vec<u64>, Perturbed) {
    let mut state = board.state();
    state.bitmap.fill(u64::MAX);
    for _ in 0..random.below(13) {
        let near = if random.chance(1, 4) { state.total - 1 } else { 16 };
        let index = (state.total - 1 - random.below(near)) as usize;
        state.bitmap[index / 64] &= !(1 << (index % 64));
    }
    (board.words().to_vec(), parts_of(&state))
}

/// Regions of 2^21 to 2^30 bytes put over what some calls led to, one of each list, and the calls that
/// release them, with an mprotect before them if asked for. Few of their pages are mapped.
fn far(
    random: &mut Random,
    generator: &mut Generator,
    board: &mut Board,
    calls: &mut Vec<Call>,
    protects: bool,
) -> (Vec<u64>, Perturbed) {
    play(generator, board, 12);
    let mut parts = parts_of(&board.state());
    let start = parts.regions.first().map_or(parts.next_addr, |region| region.start);
    let user = Region { start, size: far_size(random), prot: 2, flags: 0x22 };
    parts.regions.retain(|region| region.start != user.start);
    parts.regions.push(user);
    parts.regions.sort_by_key(|region| region.start);
    calls.push(Call::Munmap { addr: user.start, size: user.size });
    let start = random.one_of(&[KERNEL_WINDOW.0, KERNEL_WINDOW.0 + 4 * PAGE, user.start]);
    let kernel = Slot { start, size: far_size(random), used: true };
    parts.slots.retain(|slot| slot.start != kernel.start);
    let at = random.below(parts.slots.len().min(200) as u64 + 1) as usize;
    parts.slots.insert(at, kernel);
    calls.push(Call::Vfree { addr: kernel.start });
    if protects {
        let prot = random.one_of(&[0, 1, 3, -1]);
        calls.push(Call::Mprotect { addr: user.start, size: user.size, prot });
    }
    (board.words().to_vec(), parts)
}

fn far_size(random: &mut Random) -> u64 {
    let more = random.one_of(&[22, 26, 30]);
    match random.below(4) {
        0 => 1 << 30,
        _ => ((1 << 21) + random.below(1 << more)).min(1 << 30) & !(PAGE - 1),
    }
}

/// A page that is mapped, marked and written to, the last call first. Mostly the temporary page is
/// mapped before: as a region, to a frame, or by a fault.
fn copies(random: &mut Random) -> Vec<Call> {
    let addr = USER_WINDOW.0;
    let mmap = |given, addr| Call::Mmap { given, addr, size: PAGE, prot: 2, flags: 0x22 };
    let temporary = match random.below(4) {
        0 => mmap(true, TEMPORARY),
        1 => Call::MapPage { virt: TEMPORARY, phys: random.word(), flags: 3 },
        2 => Call::SecondFault { addr: TEMPORARY + random.below(PAGE), code: 2 },
        _ => Call::Translate { addr: TEMPORARY },
    };
    let write = Call::Fault { addr: addr + random.below(PAGE), code: random.one_of(&[3, 7, 0x23]) };
    vec![write, Call::MarkCow { addr }, write, temporary, Call::MarkCow { addr }, mmap(false, 0)]
}

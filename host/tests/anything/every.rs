//! Every C function as C calls it, from the one table: pointers and lengths of any kind that the header
//! allows, and the bitmap without one. Byte parts stand at even and odd addresses, between guards or
//! between bytes that must stay, and a part of length 0 may be null.

use crate::boards::{self, any_levels, Base};
use crate::guard::{self, Against, Guarded};
use crate::model::Model;
use crate::report::{equal, holds, Checked};
use crate::table::{Answer, Arg, Row, TABLE};
use crate::PATIENCE;
use calls::{Call, KERNEL_WINDOW, LAST, PAGE, TEMPORARY, USER_WINDOW};
use gadulnos::raw::{Frames, Kernel, Line, Marked, Parts, Told, User, NONE, SHOWN_NUMBERS};
use trial::generate::Random;

/// Bytes that stand around a part at an odd address.
const AROUND: u8 = 0xA5;

/// As many arguments as a function has at most, each in a register or on the stack.
const ARGS: usize = 16;

/// Two registers.
#[repr(C)]
struct Registers(u64, u64);

type Function = unsafe extern "C" fn(
    u64,
    u64,
    u64,
    u64,
    u64,
    u64,
    u64,
    u64,
    u64,
    u64,
    u64,
    u64,
    u64,
    u64,
    u64,
    u64,
) -> Registers;

/// A part that a call is lent.
enum Lent {
    Bytes { before: Vec<u8>, memory: Guarded<u8>, from: usize, null: bool },
    Words { before: Vec<u64>, memory: Guarded<u64>, null: bool },
}

impl Lent {
    fn bytes(random: &mut Random, part: &[u8]) -> Lent {
        let null = part.is_empty() && random.chance(1, 2);
        let (from, memory) = match random.below(3) {
            0 => (0, Guarded::copy(part, Against::Before)),
            1 => (0, Guarded::copy(part, Against::Behind)),
            _ => {
                let from = random.one_of(&[1, 3, 5, 7]);
                let mut all = vec![AROUND; from];
                all.extend(part);
                all.extend([AROUND; 9]);
                (from, Guarded::copy(&all, Against::Before))
            }
        };
        Lent::Bytes { before: part.to_vec(), memory, from, null }
    }

    fn words(random: &mut Random, words: &[u64]) -> Lent {
        let null = words.is_empty() && random.chance(1, 2);
        let against = random.one_of(&[Against::Before, Against::Behind]);
        Lent::Words { before: words.to_vec(), memory: Guarded::copy(words, against), null }
    }

    fn pointer(&mut self) -> u64 {
        match self {
            Lent::Bytes { null: true, .. } | Lent::Words { null: true, .. } => 0,
            Lent::Bytes { memory, from, .. } => memory[*from..].as_mut_ptr() as u64,
            Lent::Words { memory, .. } => memory.as_mut_ptr() as u64,
        }
    }

    fn length(&self) -> u64 {
        match self {
            Lent::Bytes { before, .. } => before.len() as u64,
            Lent::Words { before, .. } => before.len() as u64,
        }
    }

    fn is_same(&self) -> bool {
        match self {
            Lent::Bytes { before, memory, from, .. } => {
                memory[*from..*from + before.len()] == before[..]
            }
            Lent::Words { before, memory, .. } => memory[..] == before[..],
        }
    }

    /// Whether the bytes around a part stayed.
    fn stands_alone(&self) -> bool {
        match self {
            Lent::Bytes { before, memory, from, .. } => {
                let (front, rest) = memory.split_at(*from);
                front.iter().chain(&rest[before.len()..]).all(|byte| *byte == AROUND)
            }
            Lent::Words { .. } => true,
        }
    }
}

/// Calls each function on boards that calls led to and on anything else.
pub fn run(random: &mut Random, rounds: u64) -> Checked {
    let mut calls = 0;
    for round in 0..rounds {
        guard::within(PATIENCE);
        let base = boards::base(random)?;
        for row in TABLE {
            for _ in 0..3 {
                call(random, &base, row)
                    .map_err(|why| format!("round {round}: {}: {why}", row.name))?;
                calls += 1;
            }
        }
    }
    Ok(calls)
}

/// What a function is lent, and its arguments as C hands them over.
fn arguments(random: &mut Random, base: &Base, row: &Row) -> (Vec<(Arg, Lent)>, [u64; ARGS]) {
    let mut lent: Vec<(Arg, Lent)> = Vec::new();
    let mut args: Vec<u64> = Vec::new();
    for &arg in row.args {
        match part(random, base, arg) {
            Some(mut part) => {
                args.push(part.pointer());
                if !arg.has_no_length() {
                    args.push(part.length());
                }
                lent.push((arg, part));
            }
            None => args.push(number(random, base, arg)),
        }
    }
    args.resize(ARGS, random.word());
    (lent, args.try_into().expect("no more arguments than there is room for"))
}

fn call(random: &mut Random, base: &Base, row: &Row) -> Result<(), String> {
    let (lent, args) = arguments(random, base, row);
    // SAFETY: each pointer lends what the table says.
    let (Registers(first, second), tally) = match row.answer {
        Answer::Found => unsafe { enter_found(random, row, args)? },
        _ => (unsafe { enter(row, args) }, NONE),
    };
    let changes_nothing = match row.answer {
        Answer::Nothing | Answer::Word => false,
        Answer::Bool => {
            holds(first & 0xFF < 2, "a bool")?;
            false
        }
        Answer::Numbered | Answer::Found => {
            row.allows(Line { number: first, value: second })?;
            row.bare.contains(&first)
        }
    };
    for (arg, part) in &lent {
        holds(part.stands_alone(), &format!("the bytes around {arg:?} as they were"))?;
        if changes_nothing || is_read(*arg) {
            holds(part.is_same(), &format!("{arg:?} as it was, with {first:x}"))?;
        }
    }
    let line = Line { number: first, value: second };
    match &lent[..] {
        [(Arg::Words, words), (Arg::Working, out)] => shown(words, out, &args, line),
        [(Arg::Words, words)] if row.name == "gadulnos_user_may" => asked(words, &args, line),
        [(Arg::WordsMut, words), (Arg::UserMut, list)] => protected(words, list, &args, line),
        parts if row.answer == Answer::Found => given(row, parts, &args, Told { line, tally }),
        _ => Ok(()),
    }
}

/// Calls a function whose answer is four numbers. Where they are to be written stands before the arguments, and is
/// handed back; the numbers beside them stay. The first is the number, and there is no value.
///
/// # Safety
///
/// The pointers must lend what the function asks.
unsafe fn enter_found(
    random: &mut Random,
    row: &Row,
    args: [u64; ARGS],
) -> Result<(Registers, [u64; 3]), String> {
    let old: Vec<u64> = (0..12).map(|_| random.word()).collect();
    let from = random.one_of(&[0, 3, 8]);
    let against = if from == 0 { Against::Before } else { Against::Behind };
    let mut memory = Guarded::copy(&old, against);
    let out = memory[from..].as_mut_ptr() as u64;
    let mut all = [out; ARGS];
    all[1..].copy_from_slice(&args[..ARGS - 1]);
    let Registers(back, _) = enter(row, all);
    equal(back, out)?;
    let beside = |i: &usize| !(from..from + 4).contains(i);
    let stayed = (0..12).filter(beside).all(|i| memory[i] == old[i]);
    holds(stayed, "the numbers beside an answer as they were")?;
    let tally = memory[from + 1..from + 4].try_into().expect("three numbers");
    Ok((Registers(memory[from], 0), tally))
}

/// Calls a row's function. All arguments and both results are integers or pointers, which go through the
/// same registers and places on the stack whatever their types; arguments past the last are not looked at.
///
/// # Safety
///
/// The pointers must lend what the function asks.
unsafe fn enter(row: &Row, a: [u64; ARGS]) -> Registers {
    let function = std::mem::transmute::<unsafe extern "C" fn(), Function>(row.function);
    function(
        a[0], a[1], a[2], a[3], a[4], a[5], a[6], a[7], a[8], a[9], a[10], a[11], a[12], a[13],
        a[14], a[15],
    )
}

/// The model of a walk's board, and the address: words, then behind their pointer and number start_frame,
/// total, levels, root and the address.
fn model(words: &Lent, args: &[u64; ARGS]) -> Result<(Model, u64), String> {
    let words = match words {
        Lent::Words { before, .. } => before.clone(),
        Lent::Bytes { .. } => return Err("no words".to_string()),
    };
    let [start_frame, total, levels, root, virt]: [u64; 5] =
        args[2..7].try_into().expect("five numbers");
    let frames = Frames { start_frame, total, allocated: 0, levels };
    let board = Parts { words, fields: frames.pack(), root, ..Parts::lend(0) };
    Ok((Model::of(&board), virt))
}

/// That an answer and every number of its working are the model's.
fn shown(words: &Lent, out: &Lent, args: &[u64; ARGS], line: Line) -> Result<(), String> {
    let numbers = match out {
        Lent::Words { memory, .. } => memory,
        Lent::Bytes { .. } => return Err("no numbers".to_string()),
    };
    let (mut model, virt) = model(words, args)?;
    let (wanted, working) = model.show_translate(virt);
    equal((line, &numbers[..]), (wanted, &working[..]))
}

/// That the user question's answer is the model's. Behind the address stands whether it is to write.
fn asked(words: &Lent, args: &[u64; ARGS], line: Line) -> Result<(), String> {
    let (mut model, virt) = model(words, args)?;
    equal(line, model.user_may(virt)[args[7] as usize])
}

/// That a call that gives frames back told what the model tells, and left what the model leaves. It is lent words,
/// fields, bitmap and a list, and the root's number before the list.
fn given(row: &Row, lent: &[(Arg, Lent)], args: &[u64; ARGS], told: Told) -> Result<(), String> {
    let mut before = Parts { root: args[5], ..Parts::lend(0) };
    let mut left = before.clone();
    for (arg, part) in lent {
        let [old, new] = match part {
            Lent::Words { before: old, memory, .. } => {
                (before.words, left.words) = (old.clone(), memory.to_vec());
                continue;
            }
            Lent::Bytes { before, memory, from, .. } => {
                [before.clone(), memory[*from..*from + before.len()].to_vec()]
            }
        };
        match arg {
            Arg::FieldsMut => (before.fields, left.fields) = (old, new),
            Arg::KernelMut => (before.kernel, left.kernel) = (old, new),
            Arg::UserMut => (before.user, left.user) = (old, new),
            Arg::MarkedMut => (before.marked, left.marked) = (old, new),
            _ => {
                before.bits.copy_from_slice(&old);
                left.bits.copy_from_slice(&new);
            }
        }
    }
    let call = match row.name {
        "gadulnos_vfree" => Call::Vfree { addr: args[8] },
        "gadulnos_munmap" => Call::Munmap { addr: args[8], size: args[9] },
        _ => Call::Fault { addr: args[8], code: args[9] },
    };
    let mut model = Model::of(&before);
    equal(told, model.play(&call))?;
    model.compare(&left)
}

/// That an mprotect's answer is the model's, and so are the words and the list that it left. Behind the root stand
/// the list, the region's start and size, and prot.
fn protected(words: &Lent, list: &Lent, args: &[u64; ARGS], line: Line) -> Result<(), String> {
    let (left, before, bytes, from) = match (words, list) {
        (Lent::Words { memory: left, .. }, Lent::Bytes { before, memory, from, .. }) => {
            (left, before, memory, *from)
        }
        _ => return Err("no words and list".to_string()),
    };
    let (mut model, _) = model(words, args)?;
    model.user = User::unpack(before);
    let call = Call::Mprotect { addr: args[8], size: args[9], prot: args[10] as i32 };
    equal(line, model.play(&call).line)?;
    holds(left[..] == model.words[..], "the model's words")?;
    let wanted = model.user.as_ref().map_or_else(|| before.clone(), User::pack);
    holds(bytes[from..from + before.len()] == wanted[..], "the model's list")
}

fn is_read(arg: Arg) -> bool {
    matches!(arg, Arg::Words | Arg::Fields | Arg::Bits | Arg::User | Arg::Marked | Arg::Table)
}

/// What a pointer lends: mostly the board's own part.
fn part(random: &mut Random, base: &Base, arg: Arg) -> Option<Lent> {
    let board = &base.board;
    let bytes: &[u8] = match arg {
        Arg::Fields | Arg::FieldsMut => &board.fields,
        Arg::Bits | Arg::BitsMut => &board.bits[..],
        Arg::KernelMut => &board.kernel,
        Arg::User | Arg::UserMut => &board.user,
        Arg::Marked | Arg::MarkedMut => &board.marked,
        Arg::Words | Arg::WordsMut => {
            let mut words = board.words.clone();
            match random.below(16) {
                0 => words.clear(),
                1 => drop(words.pop()),
                2 => words.push(random.word()),
                3 => words.iter_mut().for_each(|word| *word = random.word()),
                _ => {}
            }
            return Some(Lent::words(random, &words));
        }
        Arg::RootOut => return Some(Lent::words(random, &[board.root])),
        Arg::Table => {
            let table: Vec<u64> = (0..512).map(|_| random.word()).collect();
            return Some(Lent::words(random, &table));
        }
        Arg::Compared => return Some(Lent::words(random, &[7])),
        Arg::Indices => return Some(Lent::words(random, &[7; 4])),
        Arg::Working => {
            let numbers: Vec<u64> = (0..SHOWN_NUMBERS).map(|_| random.word()).collect();
            return Some(Lent::words(random, &numbers));
        }
        _ => return None,
    };
    let bytes = damaged(random, bytes, arg.has_no_length());
    Some(Lent::bytes(random, &bytes))
}

/// Bytes, seldom of another length, unless that stands in their type, or with other contents.
fn damaged(random: &mut Random, bytes: &[u8], has_no_length: bool) -> Vec<u8> {
    let mut bytes = bytes.to_vec();
    match random.below(20) {
        0..=2 if has_no_length => {
            let at = random.below(bytes.len() as u64) as usize;
            bytes[at] ^= 1 << random.below(8);
        }
        0 => bytes.clear(),
        1 => drop(bytes.pop()),
        2 => bytes.push(random.word() as u8),
        3 => bytes.iter_mut().for_each(|byte| *byte = random.word() as u8),
        _ => {}
    }
    bytes
}

/// What a number is: mostly one that means something to the board.
fn number(random: &mut Random, base: &Base, arg: Arg) -> u64 {
    let Frames { start_frame, total, levels, .. } = base.board.frames();
    match arg {
        Arg::Flag => random.below(2),
        Arg::Signed => random.one_of(&[0, 2, 0x10, 0x12, u64::from(u32::MAX), 1 << 31]),
        Arg::Start if random.chance(7, 8) => start_frame,
        Arg::Total if random.chance(7, 8) => total,
        Arg::Levels if random.chance(3, 4) => levels,
        Arg::Levels => any_levels(random),
        Arg::Root if random.chance(7, 8) => base.board.root,
        Arg::RegionStart if random.chance(7, 8) => first_region(base).0,
        Arg::RegionSize if random.chance(7, 8) => first_region(base).1,
        Arg::SlotStart if random.chance(3, 4) => {
            let list = Kernel::unpack(&base.board.kernel);
            list.map_or(0, |list| list.slots[random.below(4) as usize].start)
        }
        Arg::Page if random.chance(3, 4) => {
            let list = Marked::unpack(&base.board.marked);
            list.map_or(0, |list| list.pages[random.below(2) as usize])
        }
        Arg::Code if random.chance(3, 4) => random.one_of(&[0, 2, 3, 3, 7, 7]),
        _ => any_number(random, base),
    }
}

/// The first mmap region, or what stands in its slot: its start and its size.
fn first_region(base: &Base) -> (u64, u64) {
    User::unpack(&base.board.user).map_or((0, 0), |list| (list.slots[0].start, list.slots[0].size))
}

fn any_number(random: &mut Random, base: &Base) -> u64 {
    let at = random.below(256) as usize;
    let region = Kernel::unpack(&base.board.kernel).map_or(0, |list| list.slots[at % 8].start);
    let mapped = User::unpack(&base.board.user)
        .map_or((0, 0), |l| (l.slots[at % 8].start, l.slots[at % 8].size));
    let page = Marked::unpack(&base.board.marked).map_or(0, |list| list.pages[at % 8]);
    let near = [0, 1, 3, 7, PAGE, 2 * PAGE, 0x20_0000, 0x4000_0000, 1 << 47, 1 << 52, 1 << 56];
    let far = [KERNEL_WINDOW.0, USER_WINDOW.0, TEMPORARY, LAST, LAST + 1, u64::MAX];
    let board =
        [region, mapped.0, mapped.1, page, base.board.root, base.board.frames().start_frame];
    let any = [random.word(), random.word() >> random.below(64)];
    let pick = random.below(4);
    random.one_of([&near[..], &far, &board, &any][pick as usize])
}

/// That the two registers of an answer are its number and its value, by a call with a known answer.
pub fn registers() -> Result<(), String> {
    let row = TABLE.iter().find(|row| row.name == "gadulnos_page_align_up").ok_or("no such row")?;
    let mut args = [0; ARGS];
    args[0] = 4097;
    // SAFETY: it is lent nothing.
    let answer = unsafe { enter(row, args) };
    equal((answer.0, answer.1), (0, 8192))
}

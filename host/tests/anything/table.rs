//! Every C function: what it is lent, what it answers with, and which of document 01's numbers leave
//! nothing behind. The fuzz, the checks of single answers and the count of numbers all read this table.

use crate::report::{equal, holds, Report};
use crate::shot::Seen;
use gadulnos::raw::Line;
use std::collections::{BTreeMap, BTreeSet};

/// An argument as C sees it. A part is a pointer and a length, but for the bitmap.
#[derive(Clone, Copy, PartialEq, Eq, Debug)]
pub enum Arg {
    Number,
    Flag,
    Signed,
    /// start_frame, total, levels and the root's number, as walks are lent them.
    Start,
    Total,
    Levels,
    Root,
    /// The start and the size of an mmap region, and the start of a vmalloc region.
    RegionStart,
    RegionSize,
    SlotStart,
    /// An address, mostly a marked page's, and an error code, mostly a copy's.
    Page,
    Code,
    /// A pointer to the root's number, which a start writes.
    RootOut,
    /// A pointer to a number, which the search writes.
    Compared,
    /// A pointer to a table of 512 words, which is read.
    Table,
    /// A pointer to four indices, which are written.
    Indices,
    /// A pointer to the 26 numbers of a working, which are written, whatever the answer.
    Working,
    /// Parts that are read, and parts that may be written.
    Words,
    WordsMut,
    Fields,
    FieldsMut,
    /// A pointer to the bitmap's 1024 bytes.
    Bits,
    BitsMut,
    KernelMut,
    User,
    UserMut,
    Marked,
    MarkedMut,
}

use Arg::*;

impl Arg {
    /// Whether it is the frames' words.
    fn is_words(&self) -> bool {
        matches!(self, Words | WordsMut)
    }

    /// Whether it is a pointer alone, to as many items as its type says.
    pub fn has_no_length(self) -> bool {
        matches!(self, RootOut | Compared | Table | Indices | Working | Bits | BitsMut)
    }
}

#[derive(Clone, Copy, PartialEq, Eq, Debug)]
pub enum Answer {
    Nothing,
    Word,
    Bool,
    /// A number of document 01 and a value.
    Numbered,
    /// A number of document 01 and what was found of frames: four numbers, written to where the caller says.
    Found,
}

pub struct Row {
    pub name: &'static str,
    pub function: unsafe extern "C" fn(),
    pub args: &'static [Arg],
    pub answer: Answer,
    /// The numbers that change nothing.
    pub bare: &'static [u64],
    /// The numbers with leftovers.
    pub leaving: &'static [u64],
}

/// Rows that nothing refuses, and rows with their numbers: those that change nothing, then those with
/// leftovers.
macro_rules! rows {
    (
        plain { $($plain:ident($($arg:expr),*) -> $answer:ident;)* }
        $($told:ident { $($call:ident($($lent:expr),*) [$($bare:literal)*] [$($leaving:literal)*];)* })*
    ) => {
        extern "C" {
            $(fn $plain();)*
            $($(fn $call();)*)*
        }

        pub const TABLE: &[Row] = &[
            $(Row {
                name: stringify!($plain),
                function: $plain,
                args: &[$($arg),*],
                answer: Answer::$answer,
                bare: &[],
                leaving: &[],
            },)*
            $($(Row {
                name: stringify!($call),
                function: $call,
                args: &[$($lent),*],
                answer: Answer::$told,
                bare: &[$($bare),*],
                leaving: &[$($leaving),*],
            },)*)*
        ];
    };
}

rows! {
    plain {
        gadulnos_align_down(Number, Number) -> Word;
        gadulnos_is_aligned(Number, Number) -> Bool;
        gadulnos_page_offset(Number) -> Word;
        gadulnos_page_number(Number) -> Word;
        gadulnos_zone(Number) -> Word;
        gadulnos_containing_address(Number) -> Word;
        gadulnos_start_address(Number) -> Word;
        gadulnos_huge_size(Flag) -> Word;
        gadulnos_huge_alignment(Flag) -> Word;
        gadulnos_entry_set(Number, Flag, Flag) -> Word;
        gadulnos_entry_set_huge(Number, Flag, Flag) -> Word;
        gadulnos_entry_addr(Number) -> Word;
        gadulnos_entry_present(Number) -> Bool;
        gadulnos_entry_writable(Number) -> Bool;
        gadulnos_entry_user(Number) -> Bool;
        gadulnos_entry_huge(Number) -> Bool;
        gadulnos_flags_to_bits(Flag, Flag, Flag, Flag, Flag, Flag, Flag, Flag, Flag, Flag) -> Word;
        gadulnos_flags(Number) -> Word;
        gadulnos_handler_entry(Number, Number) -> Word;
        gadulnos_handler_present(Number) -> Bool;
        gadulnos_handler_addr(Number) -> Word;
        gadulnos_handler_flags(Number) -> Word;
        gadulnos_page_indices(Number, Indices) -> Nothing;
        gadulnos_is_vmalloc_addr(Number) -> Bool;
    }
    Numbered {
        gadulnos_align_up(Number, Number) [3] [];
        gadulnos_page_align_up(Number) [3] [];
        gadulnos_get_entry(Table, Number) [14] [];
        gadulnos_init(FieldsMut, BitsMut, Number, Number) [10] [];
        gadulnos_is_allocated(Fields, Bits, Number) [10] [];
        gadulnos_mark_allocated(FieldsMut, BitsMut, Number) [10] [];
        gadulnos_allocate_frame(FieldsMut, BitsMut) [10 11] [];
        gadulnos_deallocate_frame(FieldsMut, BitsMut, Number) [10] [];
        gadulnos_free_frames(Fields, Bits) [10] [];
        gadulnos_allocated_frames(Fields, Bits) [10] [];
        gadulnos_total_frames(Fields, Bits) [10] [];
        gadulnos_translate(Words, Start, Total, Levels, Root, Number) [10 14 19] [];
        gadulnos_show_translate(Words, Start, Total, Levels, Root, Number, Working) [] [10 14 19];
        gadulnos_user_may(Words, Start, Total, Levels, Root, Number, Flag) [10] [];
        gadulnos_map_page(WordsMut, FieldsMut, BitsMut, Root, Number, Number, Flag, Flag) [10] [11 12 19];
        gadulnos_map_huge_page(WordsMut, FieldsMut, BitsMut, Root, Number, Number, Flag, Flag, Flag)
            [4 10] [11 12 19];
        gadulnos_unmap_page(WordsMut, Start, Total, Levels, Root, Number) [10 14 19] [];
        gadulnos_vmalloc(WordsMut, FieldsMut, BitsMut, Root, KernelMut, Number) [1 3 10 15] [11 13];
        gadulnos_mmap(
            WordsMut, FieldsMut, BitsMut, Root, UserMut, Flag, Number, Number, Signed, Signed
        ) [1 2 3 10 15 20] [11 13];
        gadulnos_mprotect(
            WordsMut, Start, Total, Levels, Root, UserMut, RegionStart, RegionSize, Signed
        ) [1 2 3 10 16] [];
        gadulnos_find_free_region(User, Number, Compared) [10] [15];
        gadulnos_mark_cow(MarkedMut, Number) [10 20] [];
        gadulnos_unmark_cow(MarkedMut, Number) [10] [];
        gadulnos_is_cow(Marked, Number) [10] [];
        gadulnos_handle_page_fault_second(WordsMut, FieldsMut, BitsMut, Root, Number, Number)
            [5 7 8 10 17] [11 19];
        gadulnos_start(
            WordsMut, FieldsMut, BitsMut, RootOut, KernelMut, UserMut, MarkedMut, Number, Number
        ) [10 11] [];
        gadulnos_start_levels(
            WordsMut, FieldsMut, BitsMut, RootOut, KernelMut, UserMut, MarkedMut, Number, Number, Levels
        ) [10 11] [];
    }
    Found {
        gadulnos_vfree(WordsMut, FieldsMut, BitsMut, Root, KernelMut, SlotStart) [10 16] [];
        gadulnos_munmap(WordsMut, FieldsMut, BitsMut, Root, UserMut, RegionStart, RegionSize)
            [1 2 3 10 16] [];
        gadulnos_handle_page_fault(WordsMut, FieldsMut, BitsMut, Root, MarkedMut, Page, Code)
            [5 6 7 8 10 11 17] [18];
    }
}

/// At most one call in so many may be left uncompared because the model gave up.
const MOST_GAVE_UP: u64 = 1000;

/// At least one call in so many walks five levels and is compared whole.
const LEAST_ON_FIVE: u64 = 8;

/// The functions behind the calls whose names differ: a tape's faults.
fn function_of(call: &str) -> String {
    let name = match call {
        "fault" => "handle_page_fault",
        "second_fault" => "handle_page_fault_second",
        name => name,
    };
    format!("gadulnos_{name}")
}

/// The row of a call, by the tape's name for it.
fn row(call: &str) -> &'static Row {
    let name = function_of(call);
    TABLE.iter().find(|row| row.name == name).expect("a row for every call")
}

impl Row {
    /// That the function may answer so. A refusal has no value.
    pub fn allows(&self, line: Line) -> Result<(), String> {
        let met = line.number == 0;
        let refused = self.bare.contains(&line.number) || self.leaving.contains(&line.number);
        let expected = format!("an answer that {} has, not {line:x?}", self.name);
        holds(met || refused && line.value == 0, &expected)
    }
}

pub fn allows(call: &str, line: Line) -> Result<(), String> {
    match call {
        "is_vmalloc_addr" => {
            holds(line.number == 0, "an answer to a question that nothing refuses")
        }
        call => row(call).allows(line),
    }
}

/// Whether a call that answers so leaves all that is lent as it was.
pub fn changes_nothing(call: &str, number: u64) -> bool {
    row(call).bare.contains(&number)
}

/// Whether a call walks: it is lent the frames' words, and is no start.
pub fn walks(call: &str) -> bool {
    row(call).args.iter().any(Arg::is_words) && !call.starts_with("start")
}

/// How often each number was answered by each call.
type Numbers = BTreeMap<(&'static str, u64), u64>;

/// Prints how often each number came, and checks that each call had each of its numbers, those that walk on
/// five levels too, unless the run was a short one.
pub fn check(report: &mut Report, seen: &Seen, rounds: u64) {
    let calls = print(&seen.numbers, "");
    print(&seen.on_five, " on five levels:");
    println!("  walks, by levels and number: {:?}", seen.walks);
    report.check("anything: the table has the functions of the header", as_declared());
    let Seen { compared, walked_five, gave_up, .. } = seen;
    let few =
        holds(gave_up * MOST_GAVE_UP <= *compared, "few releases that are too long for the model");
    report.check(
        &format!("anything: {compared} calls compared whole, {gave_up} too long for the model"),
        few,
    );
    let many = holds(walked_five * LEAST_ON_FIVE >= *compared, "many calls that walk five levels");
    let told = many.and_then(|()| holds(*walked_five > 0, "a call that walks five levels"));
    report.check(&format!("anything: {walked_five} of them walked five levels"), told);
    if rounds >= 2000 {
        let count = holds(calls.len() == 25, "all 25 kinds of calls");
        let every = count.and_then(|()| all(&seen.numbers, &calls));
        report.check("anything: every number of every call was met with", every);
        let on_five = calls.into_iter().filter(|call| walks(call)).chain(["start_levels"]);
        let every = all(&seen.on_five, &on_five.collect()).and_then(|()| all_walks(seen));
        report.check("anything: and of every call that walks, on five levels", every);
    }
}

/// Prints how often each number came; the calls.
fn print(numbers: &Numbers, on: &str) -> BTreeSet<&'static str> {
    let calls: BTreeSet<&str> = numbers.keys().map(|(call, _)| *call).collect();
    for call in &calls {
        let counts = numbers.iter().filter(|((name, _), _)| name == call);
        let counts: Vec<String> = counts.map(|((_, n), count)| format!("{n}: {count}")).collect();
        println!("  {call}{on} {}", counts.join(", "));
    }
    calls
}

/// That each of these calls had each of its numbers.
fn all(numbers: &Numbers, calls: &BTreeSet<&'static str>) -> Result<(), String> {
    for call in calls {
        let Row { bare, leaving, .. } = row(call);
        for number in [0].iter().chain(*bare).chain(*leaving) {
            holds(numbers.contains_key(&(*call, *number)), &format!("{call} {number}"))?;
        }
    }
    Ok(())
}

/// That walks that were lent 4 and 5 levels had each number, and others 10 alone.
fn all_walks(seen: &Seen) -> Result<(), String> {
    let known = [4, 5].into_iter().flat_map(|levels| [0, 10, 14, 19].map(|n| (levels, n)));
    let wanted: BTreeSet<(u64, u64)> = known.chain([(0, 10)]).collect();
    equal(seen.walks.keys().copied().collect(), wanted)
}

/// That table and header name the same functions.
fn as_declared() -> Result<(), String> {
    let header = include_str!("../../gadulnos.h");
    let mut declared = BTreeSet::new();
    for (at, _) in header.match_indices("gadulnos_") {
        let name: String =
            header[at..].chars().take_while(|c| c.is_ascii_lowercase() || *c == '_').collect();
        if header[at + name.len()..].starts_with('(') {
            declared.insert(name);
        }
    }
    equal(TABLE.iter().map(|row| row.name.to_string()).collect::<BTreeSet<_>>(), declared)
}

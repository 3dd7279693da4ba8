//! A fresh board on which an example is played: each answer is named, and the model stands beside.

use crate::guard::{Against, Guarded};
use crate::model::Model;
use crate::port::{self, Port};
use crate::report::{equal, equal_at};
use calls::{Call, PAGE};
use gadulnos::raw::{Line, Parts, TallyNumbers, Told};

/// Where the boards' frames begin.
pub const FROM: u64 = 0x10_0000;

/// The number of a board's frames, unless said.
pub const FRAMES: u64 = 16;

/// An example's calls, each with its number and its value.
pub type Played<'a> = &'a [(Call, u64, u64)];

pub struct Example {
    pub port: Port,
    pub model: Model,
}

impl Example {
    pub fn fresh(levels: u64, frames: u64) -> Result<Example, String> {
        let mut board = Parts::lend(frames as usize);
        let mut model = Model::of(&board);
        let to = FROM + frames * PAGE;
        equal(board.start_levels(FROM, to, levels), Line::met(0))?;
        equal(model.start(true, FROM, to, levels), Line::met(0))?;
        model.compare(&board)?;
        Ok(Example { port: port::guarded(&board, Against::Behind), model })
    }

    /// Plays calls: each answer is the one named and the model's, and so is all that is left.
    pub fn play(&mut self, calls: Played) -> Result<(), String> {
        for &(call, number, value) in calls {
            let told = self.one(&call)?;
            equal_at(call.to_string(), told.line, Line { number, value })?;
        }
        Ok(())
    }

    /// Plays a call that gives frames back, which is met and finds this of them.
    pub fn finds(&mut self, call: Call, tally: TallyNumbers) -> Result<(), String> {
        let told = self.one(&call)?;
        equal_at(call.to_string(), told, Told::found(tally))
    }

    /// Plays a call that is refused, and tells of no frame.
    pub fn refuses(&mut self, call: Call, number: u64) -> Result<(), String> {
        let told = self.one(&call)?;
        equal_at(call.to_string(), told, Told::refused(number))
    }

    /// Makes a call on both, which tell and leave the same.
    fn one(&mut self, call: &Call) -> Result<Told, String> {
        let about = call.to_string();
        let told = port::play(&mut self.port, call);
        equal_at(&about, told, self.model.play(call))?;
        self.model.compare(&self.port).map_err(|why| format!("after {about}: {why}"))?;
        Ok(told)
    }

    /// That user code may read an address, and write it, or not: 1 or 0.
    pub fn may(&mut self, virt: u64, wanted: [u64; 2]) -> Result<(), String> {
        let wanted = wanted.map(Line::met);
        equal_at(virt, port::user_may(&self.port, virt), wanted)?;
        equal_at(virt, self.model.user_may(virt), wanted)
    }

    /// A start that is refused and changes nothing.
    pub fn refused_start(&mut self, to: u64, levels: u64, number: u64) -> Result<(), String> {
        let wanted = Line::refused(number);
        equal_at(levels, self.port.start_levels(FROM, to, levels), wanted)?;
        equal_at(levels, self.model.start(true, FROM, to, levels), wanted)?;
        self.model.compare(&self.port)
    }

    /// Lends other words: a frame's number, an index, the word.
    pub fn lend(&mut self, words: &[(u64, u64, u64)]) {
        for &(frame, index, word) in words {
            self.port.words[place(frame, index)] = word;
            self.model.words[place(frame, index)] = word;
        }
    }

    /// That these words stand, each by its frame's number and its index.
    pub fn words(&self, words: &[(u64, u64, u64)]) -> Result<(), String> {
        words.iter().try_for_each(|&(frame, index, word)| {
            equal_at((frame, index), self.port.words[place(frame, index)], word)
        })
    }

    /// A frame's words.
    pub fn frame(&self, number: u64) -> &[u64] {
        &self.port.words[place(number, 0)..][..512]
    }

    /// The counter.
    pub fn counter(&self, wanted: u64) -> Result<(), String> {
        equal_at("the counter", self.port.frames().allocated, wanted)
    }

    /// Another packed frame record.
    pub fn lend_fields(&mut self, fields: &[u8]) {
        self.port.fields = Guarded::copy(fields, Against::Behind);
        self.model.frames = gadulnos::raw::Frames::unpack(fields);
    }
}

fn place(frame: u64, index: u64) -> usize {
    ((frame - FROM / PAGE) * 512 + index) as usize
}

pub fn map(virt: u64, phys: u64) -> Call {
    Call::MapPage { virt, phys, flags: 3 }
}

pub fn huge(virt: u64, phys: u64, gigabyte: bool) -> Call {
    Call::MapHugePage { virt, phys, gigabyte, flags: 3 }
}

pub fn translate(addr: u64) -> Call {
    Call::Translate { addr }
}

pub fn fixed(addr: u64, size: u64) -> Call {
    Call::Mmap { given: true, addr, size, prot: 2, flags: 0x10 }
}

pub fn hint(addr: u64, size: u64) -> Call {
    Call::Mmap { given: true, addr, size, prot: 2, flags: 0 }
}

/// mmap without an address.
pub fn anywhere(size: u64) -> Call {
    Call::Mmap { given: false, addr: 0, size, prot: 2, flags: 0 }
}

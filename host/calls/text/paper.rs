//! Papers, as texts and tapes hold them.

use crate::{tape, Call};

/// A paper: calls to be made on a fresh board.
#[derive(Clone, Debug, Default, PartialEq, Eq)]
pub struct Paper {
    /// The board that it asks for.
    pub board: Setting,
    /// Its calls, in order.
    pub calls: Vec<Call>,
    /// The bytes behind the last whole call of a malformed tape.
    pub rest: Vec<u8>,
    /// For each call the number of its line in the text, from 1; none where the paper was read from a tape.
    pub lines: Vec<usize>,
}

/// What a paper or a command line says of its board. What is left open is as on document 01's board: 16 frames from
/// 0x100000, four levels.
#[derive(Clone, Copy, Debug, Default, PartialEq, Eq)]
pub struct Setting {
    /// The number of frames.
    pub frames: Option<u64>,
    /// The physical address of the first frame.
    pub from: Option<u64>,
    /// The number of levels of page tables.
    pub levels: Option<u64>,
}

impl Paper {
    /// The paper of a tape whose calls have kinds 1 to `kinds`. What stands from the first call on that cannot be
    /// read is the rest.
    ///
    /// ```
    /// let paper = calls::Paper::of_tape(&[6, 0], 6);
    /// assert_eq!((paper.calls.len(), paper.rest), (0, vec![6, 0]));
    /// ```
    pub fn of_tape(bytes: &[u8], kinds: u8) -> Paper {
        let tape = tape::parse(bytes, kinds);
        let rest = tape.broken.and_then(|at| bytes.get(at..)).unwrap_or_default();
        Paper { calls: tape.calls, rest: rest.to_vec(), ..Paper::default() }
    }

    /// The bytes of its tape, the rest behind the calls; or the first call, from 0, whose kind is above `kinds`.
    ///
    /// ```
    /// let paper = calls::text::parse(b"vmalloc 1\nmay_read 0x1000").unwrap();
    /// assert_eq!(paper.to_tape(calls::tape::KINDS), Err(1));
    /// let tape = paper.to_tape(calls::tape::WIDE_KINDS).unwrap();
    /// assert_eq!(calls::Paper::of_tape(&tape, calls::tape::WIDE_KINDS).calls, paper.calls);
    /// ```
    ///
    /// ```
    /// let paper = calls::text::parse(b"allocate_frame").unwrap();
    /// assert_eq!(paper.to_tape(21), Ok(vec![14]));
    /// assert_eq!(paper.to_tape(6), Err(0));
    /// ```
    pub fn to_tape(&self, kinds: u8) -> Result<Vec<u8>, usize> {
        match self.calls.iter().position(|call| call.kind() > kinds) {
            Some(at) => Err(at),
            None => Ok([tape::serialise(&self.calls), self.rest.clone()].concat()),
        }
    }
}

//! Document 02's slip 4: a translation with 'the entries read', for each 'the level, the frame and index, the
//! word, and the verdict'. The model's own walk notes what it reads, and what it comes to is the verdict on
//! the last entry: no rule stands here that `translate` has not.

use super::memory::Memory;
use super::Model;
use calls::Call;
use gadulnos::raw::{Line, SHOWN_NUMBERS};

/// 'absent, outside, followed, large page .. or last'.
const ABSENT: u64 = 0;
const OUTSIDE: u64 = 1;
const FOLLOWED: u64 = 2;
const LARGE_PAGE: u64 = 3;
const LAST: u64 = 4;

impl Model {
    /// A translation, and its working as the 26 numbers: how many entries were read, then five numbers for
    /// each. A broken record has none: nothing is read.
    pub fn show_translate(&mut self, virt: u64) -> (Line, [u64; SHOWN_NUMBERS]) {
        let line = self.play(&Call::Translate { addr: virt }).line;
        let memory = self.memory();
        let rows = match memory.walk_is_broken() {
            true => Vec::new(),
            false => memory.rows(virt),
        };
        let mut numbers = [0; SHOWN_NUMBERS];
        numbers[0] = rows.len() as u64;
        numbers[1..].iter_mut().zip(rows.concat()).for_each(|(to, number)| *to = number);
        (line, numbers)
    }
}

impl Memory<'_> {
    /// Level, frame, index, word and verdict of each entry read. All but the last led on.
    fn rows(&self, virt: u64) -> Vec<[u64; 5]> {
        let mut reads = Vec::new();
        let end = match self.leaf(virt, &mut reads) {
            Ok((_, true)) => LARGE_PAGE,
            Ok((_, false)) => LAST,
            Err(14) => ABSENT,
            Err(19) => OUTSIDE,
            Err(number) => unreachable!("a walk does not answer {number}"),
        };
        let count = reads.len();
        let verdict = |i| if i + 1 == count { end } else { FOLLOWED };
        let row = |(i, read)| {
            let [level, frame, index, word]: [u64; 4] = read;
            [level, frame, index, word, verdict(i)]
        };
        reads.into_iter().enumerate().map(row).collect()
    }
}

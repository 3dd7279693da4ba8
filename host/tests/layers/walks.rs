//! The calls that are lent the number of levels, on a chain of tables that leads to one page: which bits of
//! an address they look at, on which level HUGE counts, which entries USER and WRITABLE count in, and which
//! numbers of levels they refuse. The working of each translation is read again.

use crate::guard::{Against, Guarded};
use crate::options::Options;
use crate::port;
use crate::reader::{self, Tables};
use crate::report::{equal_at, holds, Checked, Report};
use calls::PAGE;
use gadulnos::raw::{Frames, Line, LEVELS, MOST_LEVELS};
use trial::generate::Random;

const WRITABLE: u64 = 2;
const USER: u64 = 4;
const HUGE: u64 = 128;

/// The user's, writable and present.
const ENTRY: u64 = 7;

/// The bits of an entry that nothing looks at: 3 to 6, 8 to 11, and 52 to 63.
const OTHERS: u64 = 0xFFF0_0000_0000_0F78;

pub fn check(report: &mut Report, options: &Options) {
    report.tell("walks: which bits of an address lead to a page", bits(options));
    report.tell("walks: HUGE on each level", huge(options));
    report.tell("walks: USER and WRITABLE clear on each level", rights(options));
    report.tell("walks: USER and WRITABLE clear in every combination", combinations(options));
    report.tell("walks: entries that are absent or lead outside", ends(options));
    report.tell("walks: other numbers of levels", other_levels(options));
}

/// Tables that lead to one page, one entry on each level. All other words are rubbish that is not present.
struct Chain {
    words: Guarded<u64>,
    start: u64,
    total: u64,
    levels: u64,
    root: u64,
    virt: u64,
    /// The page's frame.
    frame: u64,
    /// The word of the entry on each level, the last level's first.
    places: Vec<usize>,
}

impl Chain {
    fn draw(random: &mut Random, levels: u64) -> Chain {
        let total = levels + random.below(4);
        let start = random.one_of(&[0, 0x100, 1 << 35, (1 << 40) - total]);
        let virt = random.word();
        let frame = random.below(1 << 40);
        let mut words: Vec<u64> = (0..total * 512).map(|_| random.word() & !1).collect();
        // The table of the level n is the board's frame `first` + n, wrapped.
        let first = random.below(total);
        let table = |level: u64| (first + level) % total;
        let place = |level: u64| (table(level) * 512 + (virt >> (3 + 9 * level)) % 512) as usize;
        let places: Vec<usize> = (1..=levels).map(place).collect();
        words[places[0]] = (frame * PAGE) | ENTRY;
        for level in 2..=levels {
            words[place(level)] = ((start + table(level - 1)) * PAGE) | ENTRY;
        }
        let words = Guarded::copy(&words, random.one_of(&[Against::Before, Against::Behind]));
        Chain { words, start, total, levels, root: start + table(levels), virt, frame, places }
    }

    /// A translation. Its working has the same answer, and rows that give it.
    fn translate(&self, virt: u64) -> Result<Line, String> {
        let Chain { words, start, total, levels, root, .. } = self;
        let line = gadulnos::raw::translate(words, *start, *total, *levels, *root, virt);
        let frames = Frames { start_frame: *start, total: *total, allocated: 0, levels: *levels };
        let (shown, working) = port::show_translate(words, frames, *root, virt);
        equal_at("the working's answer", shown, line)?;
        match line.number {
            10 => reader::is_broken(line, &working)?,
            _ => Tables { words, frames, root: *root }.read_again(virt, line, &working)?,
        }
        Ok(line)
    }

    fn user_may(&self, virt: u64) -> [Line; 2] {
        let Chain { words, start, total, levels, root, .. } = self;
        [false, true].map(|write| {
            gadulnos::raw::user_may(words, *start, *total, *levels, *root, virt, write)
        })
    }

    /// Unmaps a page, and tells whether that one entry was cleared and nothing else changed.
    fn unmap(&mut self, virt: u64) -> (Line, bool) {
        let mut wanted = self.words.to_vec();
        let Chain { words, start, total, levels, root, .. } = self;
        let line = gadulnos::raw::unmap_page(words, *start, *total, *levels, *root, virt);
        if line.number == 0 {
            wanted[self.places[0]] = 0;
        }
        (line, self.words[..] == wanted[..])
    }
}

/// So many chains of each number of levels.
fn each(
    options: &Options,
    stream: u64,
    mut check: impl FnMut(&mut Random, &mut Chain) -> Checked,
) -> Checked {
    let mut random = options.random(stream);
    let mut cases = 0;
    for levels in [LEVELS, MOST_LEVELS] {
        for _ in 0..1 + options.amount / 4 {
            let mut chain = Chain::draw(&mut random, levels);
            let about = (levels, chain.start, chain.total, chain.virt);
            cases += check(&mut random, &mut chain).map_err(|why| format!("{about:x?}: {why}"))?;
        }
    }
    Ok(cases)
}

/// Another bit of an index leads elsewhere, another one above the indices does not.
fn bits(options: &Options) -> Checked {
    each(options, 40, |_, chain| {
        let (virt, page) = (chain.virt, chain.frame * PAGE);
        equal_at(virt, chain.translate(virt)?, Line::met(page + virt % PAGE))?;
        for bit in 0..64 {
            let other = virt ^ 1 << bit;
            let leads_elsewhere = (12..12 + 9 * chain.levels).contains(&bit);
            let (wanted, may) = match leads_elsewhere {
                true => (Line::refused(14), Line::met(0)),
                false => (Line::met(page + other % PAGE), Line::met(1)),
            };
            equal_at(other, chain.translate(other)?, wanted)?;
            equal_at(other, chain.user_may(other), [may; 2])?;
            if leads_elsewhere {
                equal_at(other, chain.unmap(other), (wanted, true))?;
            }
        }
        let alias = virt ^ u64::MAX << (12 + 9 * chain.levels);
        equal_at(alias, chain.unmap(alias), (Line::met(chain.frame), true))?;
        equal_at(virt, chain.translate(virt)?, Line::refused(14))?;
        Ok(66)
    })
}

/// On the last level but one a HUGE entry ends a translation, and user code may not; unmap_page follows it.
/// On the others nothing looks at it.
fn huge(options: &Options) -> Checked {
    each(options, 41, |_, chain| {
        let (virt, page) = (chain.virt, chain.frame * PAGE);
        for (level, place) in (1..).zip(chain.places.clone()) {
            let word = chain.words[place];
            chain.words[place] = word | HUGE;
            let large = (word & 0x000F_FFFF_FFFF_F000) + virt % (1 << 21);
            let (wanted, may) = match level {
                2 => (large, 0),
                _ => (page + virt % PAGE, 1),
            };
            equal_at(level, chain.translate(virt)?, Line::met(wanted))?;
            equal_at(level, chain.user_may(virt), [Line::met(may); 2])?;
            let leaf = chain.words[chain.places[0]];
            equal_at(level, chain.unmap(virt), (Line::met(chain.frame), true))?;
            chain.words[chain.places[0]] = leaf;
            chain.words[place] = word;
        }
        Ok(chain.levels)
    })
}

/// Without USER on one level, whichever, user code may not; without WRITABLE it may read. A translation looks at
/// neither.
fn rights(options: &Options) -> Checked {
    each(options, 48, |_, chain| {
        let virt = chain.virt;
        for (level, place) in (1..).zip(chain.places.clone()) {
            let word = chain.words[place];
            for (clear, may) in
                [(USER, [0, 0]), (WRITABLE, [1, 0]), (USER | WRITABLE, [0, 0]), (0, [1, 1])]
            {
                chain.words[place] = word & !clear;
                let at = (level, clear);
                equal_at(at, chain.user_may(virt), may.map(Line::met))?;
                let page = Line::met(chain.frame * PAGE + virt % PAGE);
                equal_at(at, chain.translate(virt)?, page)?;
            }
            chain.words[place] = word;
        }
        Ok(4 * chain.levels)
    })
}

/// Every choice of entries without USER and of entries without WRITABLE, whatever else the entries hold: HUGE too,
/// but for the last level but one.
fn combinations(options: &Options) -> Checked {
    each(options, 49, |random, chain| {
        let choices = 1 << chain.levels;
        let words: Vec<u64> = chain.places.iter().map(|place| chain.words[*place]).collect();
        for no_user in 0..choices {
            for no_writable in 0..choices {
                for (k, place) in chain.places.iter().enumerate() {
                    let is_in = |choice: u64| choice >> k & 1;
                    let clear = USER * is_in(no_user) + WRITABLE * is_in(no_writable);
                    let others = if k == 1 { OTHERS } else { OTHERS | HUGE };
                    chain.words[*place] = words[k] & !clear | random.word() & others;
                }
                let read = u64::from(no_user == 0);
                let write = u64::from(no_user == 0 && no_writable == 0);
                let at = (no_user, no_writable);
                equal_at(at, chain.user_may(chain.virt), [read, write].map(Line::met))?;
            }
        }
        Ok(choices * choices)
    })
}

/// 14 and 19, on each level.
fn ends(options: &Options) -> Checked {
    each(options, 42, |random, chain| {
        for (level, place) in (1..).zip(chain.places.clone()) {
            let word = chain.words[place];
            let outside = random.one_of(&[chain.start + chain.total, chain.start.wrapping_sub(1)]);
            let outside = (outside % (1 << 40) * PAGE) | ENTRY;
            for (other, number) in [(word & !1, 14), (0, 14), (outside, 19)] {
                if level == 1 && number == 19 {
                    continue;
                }
                chain.words[place] = other;
                equal_at((level, other), chain.translate(chain.virt)?, Line::refused(number))?;
                equal_at((level, other), chain.user_may(chain.virt), [Line::met(0); 2])?;
                equal_at((level, other), chain.unmap(chain.virt), (Line::refused(number), true))?;
            }
            chain.words[place] = word;
        }
        Ok(3 * chain.levels - 1)
    })
}

/// All but 4 and 5 are refused, and nothing changes.
fn other_levels(options: &Options) -> Checked {
    each(options, 43, |random, chain| {
        let known = chain.levels;
        let any = [random.word() | 8, known << 8, known | 1 << 32, known | 1 << 63, u64::MAX];
        for levels in (0..LEVELS).chain([6, 7, 8, 12]).chain(any) {
            chain.levels = levels;
            equal_at(levels, chain.translate(chain.virt)?, Line::refused(10))?;
            equal_at(levels, chain.user_may(chain.virt), [Line::refused(10); 2])?;
            equal_at(levels, chain.unmap(chain.virt), (Line::refused(10), true))?;
        }
        chain.levels = known;
        let met = chain.unmap(chain.virt) == (Line::met(chain.frame), true);
        holds(met, "the page to be there still")?;
        Ok(13)
    })
}

//! The user question (document 02, slip 2) on random words: every entry on the way is read directly.

use crate::options::Options;
use crate::reader::Tables;
use crate::report::{equal_at, Checked, Report};
use crate::rights::{often, Case, Cases};
use crate::working::any_tables;
use gadulnos::raw::{Frames, LEVELS, MOST_LEVELS};

/// Each case comes at least so often, on boards of four levels and of five, in 400 sequences.
const LEAST: u64 = 20;

pub fn check(report: &mut Report, options: &Options) {
    let mut cases = Cases::new();
    report.tell("user question: random words, all entries read", random_words(options, &mut cases));
    println!("  by levels of the walk and case: {cases:?}");
    let least = LEAST * options.amount / 400;
    let all = often(&cases, &[LEVELS, MOST_LEVELS], least);
    report.check("user question: every case often enough", all);
}

/// Tables of many kinds of entries, loops among them; most entries have USER and WRITABLE, so that a single one
/// without decides.
fn random_words(options: &Options, cases: &mut Cases) -> Checked {
    let mut random = options.random(47);
    let mut asked = 0;
    for levels in [LEVELS, MOST_LEVELS] {
        for _ in 0..1 + options.amount / 4 {
            let (mut words, frames, root) = any_tables(&mut random, levels);
            for word in words.iter_mut() {
                *word |= random.one_of(&[0, 6, 6, 6]);
            }
            let Frames { start_frame, total, .. } = frames;
            let tables = Tables { words: &words, frames, root };
            for _ in 0..256 {
                let virt = random.word();
                let ask = |write| {
                    gadulnos::raw::user_may(&words, start_frame, total, levels, root, virt, write)
                };
                let at = (start_frame, total, levels, root, virt);
                equal_at(at, [false, true].map(ask), tables.user_may(virt))?;
                let case = Case::of(levels, &tables.entries(virt));
                *cases.entry((levels, case)).or_default() += 1;
                asked += 1;
            }
        }
    }
    Ok(asked)
}

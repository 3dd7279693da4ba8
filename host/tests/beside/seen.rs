//! What random sequences must come upon, and how often, or they show little.

use crate::play::Seen;
use crate::report::Report;

/// A run of fewer sequences need not come upon everything.
pub const ENOUGH: u64 = 3000;

/// An answer, and how often it must come in 6000 sequences.
type Least = (u32, u64);

/// Every answer of the Rust to every call, and to the questions beside them.
const ANSWERS: [(&str, &[Least]); 23] = [
    ("vmalloc ", &[(0, 6000), (1, 90), (11, 5000), (13, 250), (15, 400)]),
    ("vmalloc by foresight alone, ", &[(11, 5000), (13, 90)]),
    ("vfree ", &[(0, 1800), (16, 4000)]),
    ("mmap ", &[(0, 5000), (1, 150), (2, 40), (11, 2500), (13, 900), (15, 1500)]),
    ("munmap ", &[(0, 1800), (1, 150), (2, 600), (16, 2800)]),
    (
        "fault ",
        &[(0, 900), (5, 1200), (6, 1500), (7, 150), (8, 150), (11, 900), (17, 400), (18, 400)],
    ),
    ("translate ", &[(0, 1100), (14, 3500)]),
    ("translate to level ", &[(1, 900), (2, 170)]),
    ("user may read: ", &[(0, 30000), (1, 6000)]),
    ("user may write: ", &[(0, 30000), (1, 3000)]),
    ("second_fault ", &[(0, 800), (5, 500), (7, 60), (8, 60), (11, 430), (17, 700)]),
    ("map_page ", &[(0, 2000), (11, 3000), (12, 1300)]),
    ("unmap_page ", &[(0, 1200), (14, 2700)]),
    ("map_huge_page ", &[(0, 1000), (4, 900), (11, 900), (12, 550)]),
    ("mark_cow ", &[(0, 6000)]),
    ("unmark_cow ", &[(0, 1300)]),
    ("is_cow ", &[(0, 1300)]),
    ("allocate_frame ", &[(0, 1200), (11, 500)]),
    ("deallocate_frame ", &[(0, 2000)]),
    ("mark_allocated ", &[(0, 1100)]),
    ("is_allocated ", &[(0, 1100)]),
    ("is_vmalloc_addr ", &[(0, 600)]),
    ("allocated_frames ", &[(0, 1200)]),
];

/// Each event by its name and answer.
const EVENTS: [(&str, &[Least]); 25] = [
    ("calls with a HUGE entry on the board: ", &[(1, 15000)]),
    ("vmalloc at 256 regions, ", &[(0, 10), (11, 1), (15, 30)]),
    ("vmalloc cuts at 256 regions, ", &[(0, 5)]),
    ("vfree at 256 regions, ", &[(0, 30), (16, 4)]),
    ("mmap at 255 regions, ", &[(0, 20)]),
    ("munmap at 256 regions, ", &[(0, 15), (16, 2)]),
    ("mark_cow at 255 pages, ", &[(0, 30)]),
    ("copy, ", &[(0, 230), (11, 450), (18, 30)]),
    ("copy with the temporary page mapped, ", &[(0, 40), (11, 20)]),
    // What decides the user question: above the last level it is what the page's own entry does not tell.
    ("user question, USER clear alone on level ", &[(1, 1000), (2, 30), (3, 30), (4, 600)]),
    ("user question, WRITABLE clear alone on level ", &[(1, 3000), (4, 10)]),
    ("user question, WRITABLE clear alone above the last level: ", &[(0, 25)]),
    ("user question, a large page alone on level ", &[(2, 180)]),
    ("translate over a HUGE entry of the last level but one, ", &[(0, 170)]),
    ("map_page over a HUGE entry of the last level but one, ", &[(0, 5), (12, 35)]),
    ("unmap_page over a HUGE entry of the last level but one, ", &[(0, 12), (14, 2)]),
    ("map_huge_page over a HUGE entry of the last level but one, ", &[(0, 2), (12, 120), (4, 50)]),
    ("fault over a HUGE entry of the last level but one, ", &[(5, 10), (6, 10), (11, 8), (17, 2)]),
    ("second_fault over a HUGE entry of the last level but one, ", &[(5, 8), (11, 5), (17, 10)]),
    ("vfree of a far larger region, ", &[(0, 30)]),
    ("vfree of 2^29 bytes or more, ", &[(0, 8)]),
    ("vfree of 2^30 bytes, ", &[(0, 4)]),
    ("munmap of a far larger region, ", &[(0, 30)]),
    ("munmap of 2^29 bytes or more, ", &[(0, 8)]),
    ("munmap of 2^30 bytes, ", &[(0, 5)]),
];

/// Of an mprotect and of calls behind it, which were played beside the model, each answer and event.
const BEHIND: [(&str, &[Least]); 21] = [
    ("mprotect ", &[(0, 900), (1, 40), (2, 180), (3, 20), (16, 900)]),
    ("mprotect with Set, ", &[(0, 200)]),
    ("mprotect with Cleared, ", &[(0, 200)]),
    ("mprotect with NotFound, ", &[(0, 140)]),
    ("mprotect of a far larger region, ", &[(0, 9)]),
    ("mprotect with NoProtection, ", &[(0, 130)]),
    ("mprotect with NegativeWrite, ", &[(0, 60)]),
    ("mprotect with NegativeRead, ", &[(0, 60)]),
    ("behind an mprotect, vmalloc ", &[(0, 200), (11, 250), (13, 25)]),
    ("behind an mprotect, vfree ", &[(0, 50)]),
    ("behind an mprotect, mmap ", &[(0, 350), (11, 450), (13, 130), (15, 150)]),
    ("behind an mprotect, munmap ", &[(0, 180), (16, 200)]),
    ("behind an mprotect, fault ", &[(0, 90), (11, 150), (17, 40), (18, 90)]),
    ("behind an mprotect, second_fault ", &[(0, 110), (11, 90), (17, 110)]),
    ("behind an mprotect, translate ", &[(0, 120), (14, 300)]),
    ("behind an mprotect, map_page ", &[(0, 200), (12, 140)]),
    ("behind an mprotect, unmap_page ", &[(0, 190), (14, 450)]),
    ("behind an mprotect, map_huge_page ", &[(0, 200), (12, 140)]),
    ("behind an mprotect, mark_cow ", &[(0, 400)]),
    ("behind an mprotect, deallocate_frame ", &[(0, 70)]),
    ("behind an mprotect, allocate_frame ", &[(0, 40)]),
];

/// What was found of frames that were given back, beside the Rust and behind an mprotect.
const GIVEN: [(&str, &[Least]); 18] = [
    ("given back: a frame freed, ", &[(0, 1500)]),
    ("given back: a frame already free, ", &[(0, 500)]),
    ("given back: a frame not on this board, ", &[(0, 350)]),
    ("given back: a region's frame freed, ", &[(0, 3500)]),
    ("given back: a region's frame already free, ", &[(0, 90)]),
    ("given back: a region's frame not on this board, ", &[(0, 90)]),
    ("given back: a region's frames of each kind, ", &[(0, 4)]),
    ("given back: a page passed over, ", &[(0, 600)]),
    ("given back: a frame of two pages, ", &[(0, 6)]),
    ("given back: frames in a region of 2^18 pages or more, ", &[(0, 3)]),
    ("given back: a copied page's frame freed, ", &[(0, 230)]),
    ("given back: a copy, the temporary page mapped before, ", &[(0, 40)]),
    ("given back: a demand page, ", &[(0, 700)]),
    ("behind an mprotect, given back: a region's frame freed, ", &[(0, 150)]),
    ("behind an mprotect, given back: a page passed over, ", &[(0, 60)]),
    ("behind an mprotect, given back: a frame freed, ", &[(0, 30)]),
    ("behind an mprotect, given back: a copied page's frame freed, ", &[(0, 8)]),
    ("behind an mprotect, given back: a demand page, ", &[(0, 40)]),
];

/// How many calls were played beside the Rust.
pub fn inside(seen: &Seen) -> u64 {
    seen.get("inside").copied().unwrap_or(0)
}

/// How many calls were passed over.
pub fn outside(seen: &Seen) -> u64 {
    seen.iter().filter(|(what, _)| what.starts_with("outside: ")).map(|(_, times)| times).sum()
}

/// Prints what was seen, and checks that nothing wanted is missing, unless the run was a short one.
pub fn check(report: &mut Report, seen: &Seen, sequences: u64) {
    let counts: Vec<String> = seen.iter().map(|(what, times)| format!("{what}: {times}")).collect();
    println!("  {}", counts.join("; "));
    if sequences >= ENOUGH {
        let often = |wanted: &[(&str, &[Least])]| often(seen, wanted, sequences);
        report.check("beside: every answer of the Rust often enough", often(&ANSWERS));
        report.check("beside: every event often enough", often(&EVENTS));
        let behind = often(&BEHIND);
        report.check("beside: mprotect, and calls behind it, often enough", behind);
        report.check("beside: frames given back of every kind often enough", often(&GIVEN));
    }
}

fn often(seen: &Seen, wanted: &[(&str, &[Least])], sequences: u64) -> Result<(), String> {
    for (name, answers) in wanted {
        for (answer, least) in *answers {
            let what = format!("{name}{answer}");
            let (times, least) = (seen.get(&what).copied().unwrap_or(0), least * sequences / 6000);
            if times < least.max(1) {
                return Err(format!("{what}: {times} times, not {}", least.max(1)));
            }
        }
    }
    Ok(())
}

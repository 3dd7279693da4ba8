//! Work for each of many seats, shared among the machine's cores.

use crate::{Console, Progress};
use std::sync::atomic::{AtomicU64, Ordering};
use std::sync::mpsc;
use std::thread;

/// How many seats a core takes at a time, and how many cores are used at most: each has a board of its own.
const PIECE: u64 = 32;
const MOST_CORES: u64 = 16;

/// Does the work for seats 1 to `seats` and gathers what it has to tell, by the seats' numbers: the first `most`, and
/// of how many seats there was anything. Each core works on a scratch of its own.
pub fn each_seat<S, T: Send>(
    seats: u64,
    most: usize,
    console: &mut Console,
    scratch: impl Fn() -> S + Sync,
    work: impl Fn(&mut S, u64) -> Option<T> + Sync,
) -> (Vec<(u64, T)>, u64) {
    let next = AtomicU64::new(0);
    let (sender, receiver) = mpsc::channel();
    let cores = thread::available_parallelism().map_or(1, |cores| cores.get() as u64);
    let cores = cores.min(MOST_CORES).min(seats / PIECE + 1);
    let mut progress = Progress::new(console, "seats", seats);
    let (mut told, mut count, mut done) = (Vec::new(), 0, 0);
    thread::scope(|scope| {
        let started = (0..cores).filter(|_| {
            let (next, scratch, work, sender) = (&next, &scratch, &work, sender.clone());
            let take = move || take_pieces(seats, next, scratch, work, &sender);
            thread::Builder::new().spawn_scoped(scope, take).is_ok()
        });
        if started.count() == 0 {
            take_pieces(seats, &next, &scratch, &work, &sender);
        }
        drop(sender);
        for (piece, of_seats) in receiver {
            count += piece.len() as u64;
            done += of_seats;
            told.extend(piece);
            told.sort_by_key(|(seat, _)| *seat);
            told.truncate(most);
            progress.tick(console, done);
        }
    });
    progress.end(console);
    (told, count)
}

/// What a piece of seats had to tell, and how many seats it had.
type Piece<T> = (Vec<(u64, T)>, u64);

/// One core's work: piece after piece, until none is left.
fn take_pieces<S, T>(
    seats: u64,
    next: &AtomicU64,
    scratch: &(impl Fn() -> S + Sync),
    work: &(impl Fn(&mut S, u64) -> Option<T> + Sync),
    sender: &mpsc::Sender<Piece<T>>,
) {
    let mut scratch = scratch();
    loop {
        let from = next.fetch_add(PIECE, Ordering::Relaxed);
        let to = seats.min(from.saturating_add(PIECE));
        if from >= to {
            return;
        }
        let told = (from + 1..=to).filter_map(|seat| Some((seat, work(&mut scratch, seat)?)));
        if sender.send((told.collect(), to - from)).is_err() {
            return;
        }
    }
}

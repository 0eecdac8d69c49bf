//! Work on every core.
use std::panic::resume_unwind;
use std::sync::atomic::{AtomicUsize, Ordering};
use std::thread;

/// What the work makes of each, in their order.
pub fn each<'a, T: Sync, R: Send>(all: &'a [T], work: impl Fn(&'a T) -> R + Sync) -> Vec<R> {
    let shares = by_turns(all, Vec::new, |done, (i, one)| done.push((i, work(one))));
    let mut made: Vec<_> = shares.into_iter().flatten().collect();
    made.sort_by_key(|&(i, _)| i);
    made.into_iter().map(|(_, one)| one).collect()
}

/// What each core has at the end, of which each takes the next one, with its number, until all are done.
pub fn by_turns<'a, T: Sync, S: Send>(
    all: &'a [T],
    start: impl Fn() -> S + Sync,
    work: impl Fn(&mut S, (usize, &'a T)) + Sync,
) -> Vec<S> {
    let next = AtomicUsize::new(0);
    all_at_once(|| {
        let mut share = start();
        while let Some(one) = all.iter().enumerate().nth(next.fetch_add(1, Ordering::Relaxed)) {
            work(&mut share, one);
        }
        share
    })
}

/// What each core makes of its share of the work. A panic of one is a panic here, with the same words.
pub fn all_at_once<R: Send>(share: impl Fn() -> R + Sync) -> Vec<R> {
    thread::scope(|scope| {
        let workers = thread::available_parallelism().map_or(1, usize::from);
        let workers: Vec<_> = (0..workers).map(|_| scope.spawn(&share)).collect();
        workers.into_iter().map(|worker| worker.join().unwrap_or_else(|panic| resume_unwind(panic))).collect()
    })
}

//! Work in parts, on all cores.

use std::sync::atomic::{AtomicU64, Ordering};
use std::thread;

#[must_use]
pub fn cores() -> usize {
    thread::available_parallelism().map_or(1, usize::from)
}

/// Does every part once, each on the thread that is free; a thread has a state of its own. Gives
/// back the states.
pub fn split<S: Send>(
    threads: usize,
    parts: u64,
    state: impl Fn() -> S + Sync,
    work: impl Fn(&mut S, u64) + Sync,
) -> Vec<S> {
    let next = AtomicU64::new(0);
    let thread = || {
        let mut state = state();
        loop {
            let part = next.fetch_add(1, Ordering::Relaxed);
            if part >= parts {
                return state;
            }
            work(&mut state, part);
        }
    };
    thread::scope(|scope| {
        let threads: Vec<_> = (0..threads).map(|_| scope.spawn(thread)).collect();
        threads.into_iter().map(|thread| thread.join().expect("no thread panics")).collect()
    })
}

#[cfg(test)]
mod tests {
    use super::split;

    #[test]
    fn every_part_is_done_once() {
        let states = split(3, 1000, Vec::new, |done, part| done.push(part));
        let mut done: Vec<u64> = states.into_iter().flatten().collect();
        done.sort_unstable();
        assert!(done.into_iter().eq(0..1000));
    }
}

//! Work cut into shares, which all processors take in turn; and seeds as the commands take them.

use std::env;
use std::ops::Range;
use std::sync::atomic::{AtomicUsize, Ordering};
use std::thread;

/// The seeds of a command `NAME FROM TO`, TO not included. Says how it is used where its words are others.
pub fn seeds(name: &str) -> Option<Range<u64>> {
    let words: Option<Vec<u64>> = env::args().skip(1).map(|word| word.parse().ok()).collect();
    let seeds = words.as_deref().and_then(|words| <[u64; 2]>::try_from(words).ok());
    if seeds.is_none() {
        eprintln!("usage: {name} FROM TO");
    }
    seeds.map(|[from, to]| from..to)
}

/// Seeds in shares of so many.
pub fn cut(seeds: Range<u64>, each: u64) -> Vec<Range<u64>> {
    let starts = seeds.clone().step_by(each as usize);
    starts.map(|from| from..seeds.end.min(from + each)).collect()
}

/// What is found by looking at all shares: as many threads as processors, each with a finding of its
/// own, which are joined at the end.
pub fn walk<S: Sync, F: Default + Send>(
    shares: &[S],
    look: impl Fn(&mut F, &S) + Sync,
    join: impl Fn(F, F) -> F,
) -> F {
    let next = AtomicUsize::new(0);
    let work = || {
        let mut found = F::default();
        while let Some(share) = shares.get(next.fetch_add(1, Ordering::Relaxed)) {
            look(&mut found, share);
        }
        found
    };
    thread::scope(|scope| {
        let threads = thread::available_parallelism().map_or(1, usize::from);
        let running: Vec<_> = (0..threads).map(|_| scope.spawn(work)).collect();
        let ended = running.into_iter().map(|thread| thread.join().expect("no thread panics"));
        ended.fold(F::default(), join)
    })
}

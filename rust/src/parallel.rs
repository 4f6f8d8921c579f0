//! Jobs on several threads.
use std::sync::atomic::{AtomicU64, Ordering};

/// How many threads there are to be: REHEARSE_THREADS, or two.
pub fn threads() -> usize {
    std::env::var("REHEARSE_THREADS").ok().and_then(|text| text.parse().ok()).unwrap_or(2)
}

/// Each thread begins with a state of its own and takes numbers, from 0 on, until `work` says false; the states at the end.
pub fn run<S: Send>(start: impl Fn() -> S + Sync, work: impl Fn(&mut S, u64) -> bool + Sync) -> Vec<S> {
    let next = AtomicU64::new(0);
    let worker = || {
        let mut state = start();
        while work(&mut state, next.fetch_add(1, Ordering::Relaxed)) {}
        state
    };
    std::thread::scope(|scope| {
        let handles: Vec<_> = (0..threads().max(1)).map(|_| scope.spawn(worker)).collect();
        handles.into_iter().map(|handle| handle.join().expect("a worker ends")).collect()
    })
}

#[cfg(test)]
mod tests {
    #[test]
    fn each_number_is_taken_once() {
        let sums = super::run(|| 0, |sum, number| {
            *sum += if number < 100 { number } else { 0 };
            number < 100
        });
        assert_eq!(sums.iter().sum::<u64>(), 4950);
    }
}

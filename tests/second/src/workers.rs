//! Items done one after the other by each of as many threads as the machine has
//! processors.

use std::sync::atomic::{AtomicUsize, Ordering};
use std::thread;

/// What the items give, in any order; or a fault, after which no more are begun.
pub fn each<T: Send, E: Send>(
    items: usize,
    work: impl Fn(usize) -> Result<T, E> + Sync,
) -> Result<Vec<T>, E> {
    let next = AtomicUsize::new(0);
    let worker = || {
        let mut done = Vec::new();
        loop {
            let item = next.fetch_add(1, Ordering::Relaxed);
            if items <= item {
                return Ok(done);
            }
            match work(item) {
                Ok(one) => done.push(one),
                Err(fault) => {
                    next.store(items, Ordering::Relaxed);
                    return Err(fault);
                }
            }
        }
    };
    thread::scope(|scope| {
        let many = thread::available_parallelism().map_or(1, usize::from);
        let workers: Vec<_> = (0..many).map(|_| scope.spawn(&worker)).collect();
        let mut all = Vec::new();
        for worker in workers {
            all.extend(worker.join().expect("a worker")?);
        }
        Ok(all)
    })
}

//! Spreads the cases of a run over the cores.

use std::sync::atomic::{AtomicUsize, Ordering};
use std::thread;

/// Does the work for every number below a count, on a thread for each core;
/// what each thread has at its end, in no order.
pub fn spread<T: Default + Send>(count: usize, work: impl Fn(usize, &mut T) + Sync) -> Vec<T> {
    let next = AtomicUsize::new(0);
    let run = || {
        let mut held = T::default();
        loop {
            let number = next.fetch_add(1, Ordering::Relaxed);
            if number >= count {
                return held;
            }
            work(number, &mut held);
        }
    };
    let cores = thread::available_parallelism().map_or(1, |cores| cores.get());
    thread::scope(|scope| {
        let threads: Vec<_> = (0..cores).map(|_| scope.spawn(run)).collect();
        let ends = threads.into_iter().map(|thread| thread.join());
        ends.map(|end| end.expect("no thread panics")).collect()
    })
}

#[cfg(test)]
mod tests {
    use super::*;

    #[test]
    fn every_number_is_worked_on_once() {
        let parts: Vec<Vec<usize>> = spread(1_000, |number, held: &mut Vec<usize>| {
            held.push(number);
        });
        let mut all = parts.concat();
        all.sort();
        assert_eq!(all, (0..1_000).collect::<Vec<_>>());
    }
}

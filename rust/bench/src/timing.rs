//! Medians of short samples, the tasks of a case taking turns.

use std::time::Duration;

/// A sample is so many calls that it takes about this long: long enough for
/// the clock and the caches, short enough that few samples meet another
/// process.
const SAMPLE: Duration = Duration::from_millis(1);

/// Nanoseconds of one call of each task, medians over the rounds. In each
/// round every task has one sample, so that what slows the machine down for a
/// while slows all of them.
pub fn medians<const N: usize>(rounds: usize, mut tasks: [&mut dyn FnMut(); N]) -> [f64; N] {
    let calls = tasks.each_mut().map(|task| calls_per_sample(*task));
    let mut samples: [Vec<f64>; N] = std::array::from_fn(|_| Vec::new());
    for _ in 0..rounds {
        for (number, task) in tasks.iter_mut().enumerate() {
            let taken = sample(*task, calls[number]);
            samples[number].push(taken.as_nanos() as f64 / f64::from(calls[number]));
        }
    }
    samples.map(median)
}

/// Nanoseconds of one call that takes seconds, made once.
pub fn once(mut task: impl FnMut()) -> f64 {
    let start = clock::now();
    task();
    (clock::now() - start).as_nanos() as f64
}

fn sample(task: &mut dyn FnMut(), calls: u32) -> Duration {
    // As many calls before the clock starts, and no fewer than two: the caches hold
    // this task's data, as they would in a run of such calls, and none of the task
    // before it.
    for _ in 0..calls.max(2) {
        task();
    }
    let start = clock::now();
    for _ in 0..calls {
        task();
    }
    clock::now() - start
}

/// How many calls make a sample of about the right length.
fn calls_per_sample(task: &mut dyn FnMut()) -> u32 {
    let mut calls = 1;
    loop {
        let shortest = (0..5)
            .map(|_| sample(task, calls))
            .min()
            .unwrap_or_default();
        if shortest * 2 > SAMPLE || calls >= 1 << 20 {
            return calls;
        }
        calls *= 2;
    }
}

/// The time that this thread has had a processor: what other processes take in
/// between does not count.
#[allow(unsafe_code)]
mod clock {
    use std::time::Duration;

    /// As Linux has it on x86-64, the library's only target.
    #[repr(C)]
    struct Timespec {
        seconds: i64,
        nanos: i64,
    }

    const THREAD_CPUTIME: i32 = 3;

    unsafe extern "C" {
        fn clock_gettime(clock: i32, time: *mut Timespec) -> i32;
    }

    pub fn now() -> Duration {
        let mut time = Timespec {
            seconds: 0,
            nanos: 0,
        };
        // SAFETY: the pointer is to a live Timespec, which is all that is
        // written.
        let status = unsafe { clock_gettime(THREAD_CPUTIME, &mut time) };
        assert_eq!(status, 0, "the system has a clock for each thread");
        Duration::new(time.seconds as u64, time.nanos as u32)
    }
}

fn median(mut values: Vec<f64>) -> f64 {
    values.sort_by(f64::total_cmp);
    let middle = values.len() / 2;
    match values.len() % 2 {
        0 => (values[middle - 1] + values[middle]) / 2.0,
        _ => values[middle],
    }
}

#[cfg(test)]
mod tests {
    use super::*;

    #[test]
    fn the_median_stands_in_the_middle() {
        assert_eq!(median(vec![9.0, 1.0, 2.0]), 2.0);
        assert_eq!(median(vec![4.0, 1.0, 2.0, 9.0]), 3.0);
    }
}

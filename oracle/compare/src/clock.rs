//! The times of several works, done in turn so that a slow moment meets all alike.

use std::time::{Duration, Instant};

pub struct Clock<const WORKS: usize> {
    times: usize,
    measured: [Vec<Duration>; WORKS],
}

impl<const WORKS: usize> Clock<WORKS> {
    /// Each work is done so many times in a run.
    pub fn new(times: usize) -> Self {
        Clock {
            times,
            measured: std::array::from_fn(|_| Vec::new()),
        }
    }

    /// A run of one of the works.
    pub fn run(&mut self, which: usize, mut work: impl FnMut()) {
        let start = Instant::now();
        for _ in 0..self.times {
            work();
        }
        self.measured[which].push(start.elapsed());
    }

    /// The median time of each work, done once.
    pub fn medians(self) -> [Duration; WORKS] {
        self.sorted(|runs| runs / 2)
    }

    /// The least time of each work, done once.
    pub fn least(self) -> [Duration; WORKS] {
        self.sorted(|_| 0)
    }

    fn sorted(self, taken: fn(usize) -> usize) -> [Duration; WORKS] {
        self.measured.map(|mut runs| {
            runs.sort();
            runs[taken(runs.len())] / self.times as u32
        })
    }
}

pub fn ratio(one: Duration, other: Duration) -> f64 {
    one.as_secs_f64() / other.as_secs_f64()
}

pub fn milliseconds(time: Duration) -> f64 {
    time.as_secs_f64() * 1e3
}

/// Megabytes a second.
pub fn speed(bytes: usize, time: Duration) -> f64 {
    bytes as f64 / time.as_secs_f64() / 1e6
}

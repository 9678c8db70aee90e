//! Batches of calls, one side after the other, and their medians.

use crate::stack::moved;
use std::hint::black_box;
use std::time::Duration;

/// A batch lasts at least this long; a longer call is a batch by itself.
const LEAST: Duration = Duration::from_millis(5);

/// A run over all cases of a row.
pub struct Swept {
    pub taken: Duration,
    pub calls: u32,
}

/// What can be timed of a row.
pub trait Sides: Send {
    fn rust(&mut self) -> Swept;
    fn library(&mut self) -> Swept;
}

/// Seconds a call: medians over the rounds, and how the ratio of a round ranged.
pub struct Timed {
    pub rust: f64,
    pub library: f64,
    pub lowest: f64,
    pub highest: f64,
}

impl Timed {
    /// The Rust's time over the library's.
    pub fn ratio(&self) -> f64 {
        self.rust / self.library
    }
}

/// One call for each case, between two looks at the clock. The answers of the sweep before are dropped first.
pub fn sweep<C, T>(cases: &mut [C], answers: &mut Vec<T>, call: impl Fn(&mut C) -> T) -> Duration {
    answers.clear();
    let start = computed();
    for case in cases {
        answers.push(call(black_box(case)));
    }
    let taken = computed() - start;
    black_box(&answers);
    taken
}

/// As Linux has it on 64 bits.
#[repr(C)]
#[derive(Default)]
struct Timespec {
    seconds: u64,
    nanos: u64,
}

const THREAD_CPU_TIME: i32 = 3;

unsafe extern "C" {
    fn clock_gettime(clock: i32, time: *mut Timespec) -> i32;
}

/// How long this thread has been computing: while other work has the processor, this clock stands still.
fn computed() -> Duration {
    let mut time = Timespec::default();
    // SAFETY: the call writes one timespec, which is lent to it alone.
    let failed = unsafe { clock_gettime(THREAD_CPU_TIME, &mut time) };
    assert_eq!(failed, 0, "no clock for the thread's computing");
    Duration::from_secs(time.seconds) + Duration::from_nanos(time.nanos)
}

/// Rounds of one batch of the Rust and one of the library, each round from another place on the stack.
pub fn measure(sides: &mut dyn Sides, rounds: usize) -> Timed {
    let (mut rust, mut library) = (Vec::new(), Vec::new());
    for round in 0..rounds {
        rust.push(moved(round, || batch(|| sides.rust())));
        library.push(moved(round, || batch(|| sides.library())));
    }
    let ratios: Vec<f64> = rust.iter().zip(&library).map(|(r, l)| r / l).collect();
    Timed {
        lowest: ratios.iter().copied().fold(f64::INFINITY, f64::min),
        highest: ratios.iter().copied().fold(0.0, f64::max),
        rust: median(rust),
        library: median(library),
    }
}

/// Seconds a call.
fn batch(mut sweep: impl FnMut() -> Swept) -> f64 {
    let mut total = Swept {
        taken: Duration::ZERO,
        calls: 0,
    };
    while total.taken < LEAST {
        let swept = sweep();
        total.taken += swept.taken;
        total.calls += swept.calls;
    }
    total.taken.as_secs_f64() / f64::from(total.calls)
}

/// The middle one, or the mean of the two in the middle.
fn median(mut times: Vec<f64>) -> f64 {
    times.sort_by(f64::total_cmp);
    let middle = times.len() / 2;
    match times.len() % 2 {
        0 => (times[middle - 1] + times[middle]) / 2.0,
        _ => times[middle],
    }
}

#[cfg(test)]
mod tests {
    use super::*;

    #[test]
    fn medians() {
        assert_eq!(median(vec![3.0, 1.0, 2.0]), 2.0);
        assert_eq!(median(vec![4.0, 1.0, 2.0, 9.0]), 3.0);
        assert_eq!(median(vec![5.0]), 5.0);
    }

    #[test]
    fn a_batch_lasts_and_counts_its_calls() {
        let mut sweeps = 0;
        let swept = || {
            sweeps += 1;
            Swept {
                taken: Duration::from_micros(1500),
                calls: 3,
            }
        };
        assert!((batch(swept) - 500e-6).abs() < 1e-12);
        assert_eq!(sweeps, 4);
    }

    /// The Rust takes twice as long.
    struct Doubled;

    impl Sides for Doubled {
        fn rust(&mut self) -> Swept {
            Swept {
                taken: Duration::from_millis(8),
                calls: 2,
            }
        }
        fn library(&mut self) -> Swept {
            Swept {
                taken: Duration::from_millis(4),
                calls: 2,
            }
        }
    }

    #[test]
    fn ratios() {
        let timed = measure(&mut Doubled, 3);
        assert_eq!((timed.rust, timed.library), (0.004, 0.002));
        assert_eq!(
            (timed.ratio(), timed.lowest, timed.highest),
            (2.0, 2.0, 2.0)
        );
    }
}

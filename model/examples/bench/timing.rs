//! Times that are taken turn by turn: their medians, and the differences of two.

use std::ffi::{c_int, c_long};
use std::time::Instant;

/// Turns in which everything is timed once.
const TURNS: usize = 151;

/// Turns before those that count.
const WARM_UP: usize = 10;

/// The least time of a sample, in seconds: what is faster is run several times for one.
const SAMPLE: f64 = 60e-6;

/// What takes longer than this for a sample, in seconds, is timed in fewer turns.
const LONG_SAMPLE: f64 = 4e-3;

/// The fewest samples of anything.
const FEWEST: usize = 7;

/// Something that is timed: it does a number of calls.
pub struct Timed<'a> {
    calls: usize,
    clock: Clock,
    run: Box<dyn FnMut() + 'a>,
}

#[derive(Clone, Copy)]
enum Clock {
    /// The time that this thread ran, without the time in which others had its processor.
    Thread,
    /// The time that went by.
    Wall,
}

impl<'a> Timed<'a> {
    /// Calls in this thread.
    pub fn new(calls: usize, run: impl FnMut() + 'a) -> Timed<'a> {
        Timed {
            calls,
            clock: Clock::Thread,
            run: Box::new(run),
        }
    }

    /// A run of another program.
    pub fn program(run: impl FnMut() + 'a) -> Timed<'a> {
        Timed {
            calls: 1,
            clock: Clock::Wall,
            run: Box::new(run),
        }
    }

    fn seconds(&mut self, runs: usize) -> f64 {
        match self.clock {
            Clock::Thread => {
                let start = thread_seconds();
                self.run(runs);
                thread_seconds() - start
            }
            Clock::Wall => {
                let start = Instant::now();
                self.run(runs);
                start.elapsed().as_secs_f64()
            }
        }
    }

    fn run(&mut self, times: usize) {
        for _ in 0..times {
            (self.run)();
        }
    }
}

/// The seconds that this thread has run.
fn thread_seconds() -> f64 {
    #[repr(C)]
    struct Time {
        seconds: i64,
        nanoseconds: c_long,
    }
    extern "C" {
        fn clock_gettime(clock: c_int, time: *mut Time) -> c_int;
    }
    const THREAD_CPU_TIME: c_int = 3;
    let mut time = Time {
        seconds: 0,
        nanoseconds: 0,
    };
    // SAFETY: the time is the caller's and has the layout that the C library's has.
    let failed = unsafe { clock_gettime(THREAD_CPU_TIME, &mut time) };
    assert_eq!(failed, 0, "the thread's clock is read");
    time.seconds as f64 + time.nanoseconds as f64 * 1e-9
}

/// The least time of a sample whose difference from another is taken, in seconds.
const DIFFERENCE_SAMPLE: f64 = 2e-4;

/// The time that all such samples of a row take, in seconds, where that is enough for a few turns.
const DIFFERENCES: f64 = 1.2;

/// The seconds that each of some pairs takes, turn by turn. All are timed in each turn, in an order
/// that changes, and each is run once right before its sample, so that what ran before does not
/// count.
fn turns_of<const N: usize>(pairs: &mut [[Timed; 2]; N]) -> Vec<[[f64; 2]; N]> {
    let first: [f64; N] = std::array::from_fn(|which| {
        pairs[which][0].run(1);
        pairs[which][0].seconds(1)
    });
    let runs = first.map(|seconds| (DIFFERENCE_SAMPLE / seconds).ceil().clamp(1.0, 1e5) as usize);
    let turn: f64 = (0..N)
        .map(|which| 2.0 * first[which] * (runs[which] + 1) as f64)
        .sum();
    let turns = (DIFFERENCES / turn).max(FEWEST as f64) as usize;

    let mut samples: Vec<[[f64; 2]; N]> = Vec::new();
    for turn in 0..turns {
        let mut taken = [[0.0; 2]; N];
        for offset in 0..N {
            let which = (turn / 2 + offset) % N;
            for part in [turn % 2, 1 - turn % 2] {
                let timed = &mut pairs[which][part];
                timed.run(1);
                taken[which][part] = timed.seconds(runs[which]) / runs[which] as f64;
            }
        }
        samples.push(taken);
    }
    samples
}

/// What a call of the first takes beyond a call of the second, in microseconds: the median over the
/// turns.
pub fn median_difference(pair: [Timed; 2]) -> f64 {
    let mut pairs = [pair];
    let samples = turns_of(&mut pairs);
    let mut beyond: Vec<f64> = samples.iter().map(|[[one, other]]| one - other).collect();
    median(&mut beyond) * 1e6 / pairs[0][0].calls as f64
}

/// What a call of the first of each pair takes beyond a call of the second, in microseconds: the
/// mean over the turns, without the slowest tenth of them.
pub fn differences<const N: usize>(mut pairs: [[Timed; 2]; N]) -> [f64; N] {
    let mut samples = turns_of(&mut pairs);
    let whole = |taken: &[[f64; 2]; N]| taken.iter().flatten().sum::<f64>();
    samples.sort_by(|a, b| whole(a).total_cmp(&whole(b)));
    let kept = &samples[..(samples.len() * 9).div_ceil(10)];
    std::array::from_fn(|which| {
        let beyond = |taken: &[[f64; 2]; N]| taken[which][0] - taken[which][1];
        let mean = kept.iter().map(beyond).sum::<f64>() / kept.len() as f64;
        mean * 1e6 / pairs[which][0].calls as f64
    })
}

fn median(samples: &mut [f64]) -> f64 {
    samples.sort_by(f64::total_cmp);
    samples[samples.len() / 2]
}

/// The median time of a call of each, in microseconds.
pub fn medians<const N: usize>(mut all: [Timed; N]) -> [f64; N] {
    let first: [f64; N] = std::array::from_fn(|which| {
        all[which].seconds(1);
        all[which].seconds(1)
    });
    let runs = first.map(|seconds| (SAMPLE / seconds).ceil().clamp(1.0, 1e5) as usize);
    let most_apart = (TURNS / FEWEST) as f64;
    let turns_apart =
        first.map(|seconds| (seconds / LONG_SAMPLE).ceil().clamp(1.0, most_apart) as usize);

    let mut samples = [const { Vec::new() }; N];
    for turn in 0..WARM_UP + TURNS {
        // Who goes first changes from turn to turn.
        for offset in 0..N {
            let which = (turn + offset) % N;
            if turn < WARM_UP && first[which] > LONG_SAMPLE || turn % turns_apart[which] != 0 {
                continue;
            }
            let seconds = all[which].seconds(runs[which]);
            if turn >= WARM_UP {
                samples[which].push(seconds / runs[which] as f64);
            }
        }
    }
    std::array::from_fn(|which| median(&mut samples[which]) * 1e6 / all[which].calls as f64)
}

//! Timing: jobs in turns, so that what else the machine does falls on all of them alike.

use crate::clock::seconds;

/// Something to be timed.
pub type Job<'a> = &'a mut dyn FnMut();

/// The least time that a sample takes, in seconds.
const SAMPLE: f64 = 0.004;

/// The time that all rounds take together, in seconds, where their number is left open.
const ROUNDS: f64 = 1.0;

/// The fewest rounds, where their number is left open.
const FEWEST: usize = 3;

/// The seconds that `times` runs of a job take.
fn run(job: &mut dyn FnMut(), times: u32) -> f64 {
    let start = seconds();
    for _ in 0..times {
        job();
    }
    seconds() - start
}

/// How often a job must run for a sample. It has run then, and its buffers are touched.
fn times(job: &mut dyn FnMut()) -> u32 {
    let mut times = 1;
    while times < 1 << 24 && run(job, times) < SAMPLE {
        times *= 2;
    }
    times
}

/// The least time of each job in seconds, over rounds in which each runs in turn: what else the
/// machine does can only add to it. There are as many rounds as are asked for, or as fit in a
/// second.
pub fn least<const N: usize>(
    mut jobs: [Option<Job>; N],
    rounds: Option<usize>,
) -> [Option<f64>; N] {
    let counts = jobs
        .each_mut()
        .map(|job| job.as_mut().map_or(0, |job| times(job)));
    let mut least = [None; N];
    let (mut made, start) = (0, seconds());
    while match rounds {
        Some(rounds) => made < rounds,
        None => made < FEWEST || seconds() - start < ROUNDS,
    } {
        for ((job, count), least) in jobs.iter_mut().zip(counts).zip(&mut least) {
            if let Some(job) = job {
                let sample = run(job, count) / f64::from(count);
                *least = Some(least.map_or(sample, |least: f64| least.min(sample)));
            }
        }
        made += 1;
    }
    least
}

/// A time in milliseconds, microseconds or nanoseconds.
pub fn span(seconds: f64) -> String {
    match seconds {
        1e-3.. => format!("{:.2} ms", seconds * 1e3),
        1e-6.. => format!("{:.1} µs", seconds * 1e6),
        _ => format!("{:.1} ns", seconds * 1e9),
    }
}

//! Interleaved repetitions: within each repetition every candidate is run once, and each repetition starts
//! with another one, so that a disturbance of the machine meets all alike.

use std::fs;
use std::hint::black_box;
use std::io::Read;
use std::process::{Command, Stdio};
use std::time::{Duration, Instant};

/// A candidate's single run, which answers the nanoseconds of one piece of its work.
pub type Run<'a> = Box<dyn FnMut() -> f64 + 'a>;

/// So often work is tried to learn how long it takes.
const TRIES: usize = 20;

/// What the runs of one candidate took, by repetition.
pub type Readings = Vec<f64>;

/// The readings of each run.
pub fn interleaved(repetitions: usize, runs: &mut [Run]) -> Vec<Readings> {
    let mut readings = vec![Vec::new(); runs.len()];
    for repetition in 0..repetitions {
        for turn in 0..runs.len() {
            let candidate = (repetition + turn) % runs.len();
            readings[candidate].push(runs[candidate]());
        }
    }
    readings
}

/// The readings of one of the equal pieces that each run consists of.
pub fn shares(readings: &[Readings], pieces: usize) -> Vec<Readings> {
    let share = |own: &Readings| own.iter().map(|time| time / pieces as f64).collect();
    readings.iter().map(share).collect()
}

pub fn median(mut readings: Readings) -> f64 {
    readings.sort_by(f64::total_cmp);
    let middle = readings.len() / 2;
    match readings.len() % 2 {
        0 => (readings[middle - 1] + readings[middle]) / 2.0,
        _ => readings[middle],
    }
}

/// A run that does the work again and again for about `slice`, in nanoseconds for once.
pub fn repeated<'a, T>(slice: Duration, mut work: impl FnMut() -> T + 'a) -> Run<'a> {
    let mut timed = move |times: u128| {
        let start = Instant::now();
        for _ in 0..times {
            black_box(work());
        }
        start.elapsed().as_nanos()
    };
    // The least of a few tries is not disturbed by other processes. Longer work is done once anyway.
    let first = timed(1);
    let tries = if first < slice.as_nanos() { TRIES } else { 0 };
    let once = (0..tries).map(|_| timed(1)).fold(first, u128::min);
    let times = (slice.as_nanos() / once.max(1)).max(1);
    Box::new(move || timed(times) as f64 / times as f64)
}

/// Runs a process to its end and answers the nanoseconds that it was on a processor, or those by the wall
/// clock where the system does not tell.
pub fn processor_time(mut command: Command) -> f64 {
    let start = Instant::now();
    let mut child = command.stderr(Stdio::piped()).spawn().expect("the program starts");
    let mut errors = child.stderr.take().expect("the errors are a pipe");
    // The pipe ends with the process, which the system knows until it is waited for.
    errors.read_to_end(&mut Vec::new()).expect("the pipe can be read");
    let elapsed = start.elapsed().as_nanos() as f64;
    let told = told_at_end(child.id());
    child.wait().expect("the program ends");
    told.unwrap_or(elapsed)
}

/// The processor's nanoseconds of a process that has ended.
fn told_at_end(process: u32) -> Option<f64> {
    while !fs::read_to_string(format!("/proc/{process}/stat")).ok()?.contains(") Z ") {}
    let times = fs::read_to_string(format!("/proc/{process}/schedstat")).ok()?;
    times.split(' ').next()?.parse().ok()
}

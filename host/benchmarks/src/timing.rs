//! Times two closures against one another, and prints the result as a row of a table.
use std::hint::black_box;
use std::time::{Duration, Instant};

/// Nanoseconds per call.
pub struct Times {
    pub archive: f64,
    pub plain: f64,
}

const ROUNDS: usize = 200;
/// How long each side of a round takes at least: far above what it costs to read the clock.
const ROUND: Duration = Duration::from_millis(1);

/// Times both closures in turns, so that a change of the machine's pace meets both, and takes the
/// least time of each: whatever disturbs a round only adds to it.
///
/// Inputs go through `black_box` inside the closures; results do so here.
pub fn measure<T>(mut archive: impl FnMut() -> T, mut plain: impl FnMut() -> T) -> Times {
    let calls = calls_per_round(&mut archive).max(calls_per_round(&mut plain));
    let mut least = Times {
        archive: f64::INFINITY,
        plain: f64::INFINITY,
    };
    for round in 0..ROUNDS {
        // Neither side always comes second.
        if round % 2 == 0 {
            least.archive = least.archive.min(time(&mut archive, calls));
            least.plain = least.plain.min(time(&mut plain, calls));
        } else {
            least.plain = least.plain.min(time(&mut plain, calls));
            least.archive = least.archive.min(time(&mut archive, calls));
        }
    }
    least
}

/// The least time of one closure alone.
pub fn measure_one<T>(mut call: impl FnMut() -> T) -> f64 {
    let calls = calls_per_round(&mut call);
    let times = (0..ROUNDS).map(|_| time(&mut call, calls));
    times.fold(f64::INFINITY, f64::min)
}

/// The same as `measure` for calls that take longer than a machine with other work leaves to one
/// process at a stretch: one call to a round, by the time that the processor spent on it.
pub fn measure_long<T>(
    rounds: usize,
    mut archive: impl FnMut() -> T,
    mut plain: impl FnMut() -> T,
) -> Times {
    let mut archive = || drop(black_box(archive()));
    let mut plain = || drop(black_box(plain()));
    let [archive, plain] = least_long(rounds, [&mut archive, &mut plain]);
    Times { archive, plain }
}

/// The least times of such calls, made in turns.
pub fn least_long<const N: usize>(rounds: usize, mut calls: [&mut dyn FnMut(); N]) -> [f64; N] {
    let mut least = [f64::INFINITY; N];
    for _ in 0..rounds {
        for (least, call) in least.iter_mut().zip(&mut calls) {
            *least = least.min(time_long(call, 1));
        }
    }
    least
}

/// The same, and the middle of the rounds' ratios of the first to the second. What disturbs a machine
/// for longer than a round meets both, so the ratio holds still where the least times do not.
pub fn measure_ratio<T>(
    rounds: usize,
    mut first: impl FnMut() -> T,
    mut second: impl FnMut() -> T,
) -> ([f64; 2], f64) {
    let mut least = [f64::INFINITY; 2];
    let mut ratios = Vec::new();
    for _ in 0..rounds {
        let times = [time_long(&mut first, 1), time_long(&mut second, 1)];
        least = [least[0].min(times[0]), least[1].min(times[1])];
        ratios.push(times[0] / times[1]);
    }
    ratios.sort_by(f64::total_cmp);
    (least, ratios[rounds / 2])
}

/// Nanoseconds of the processor per call.
pub fn time_long<T>(call: &mut impl FnMut() -> T, calls: u32) -> f64 {
    let wall = Instant::now();
    let start = spent();
    for _ in 0..calls {
        black_box(call());
    }
    let took = match (start, spent()) {
        (Some(start), Some(end)) => end - start,
        _ => wall.elapsed().as_nanos() as u64,
    };
    took as f64 / f64::from(calls)
}

/// The nanoseconds that the processor spent on this thread, where the system tells. It counts them
/// up at the latest when the thread yields.
fn spent() -> Option<u64> {
    std::thread::yield_now();
    let text = std::fs::read_to_string("/proc/thread-self/schedstat").ok()?;
    text.split(' ').next()?.parse().ok()
}

/// Doubles the number of calls until they fill a round; this also warms the caches.
fn calls_per_round<T>(call: &mut impl FnMut() -> T) -> u32 {
    let mut calls = 1;
    while time(call, calls) * f64::from(calls) < ROUND.as_nanos() as f64 {
        calls *= 2;
    }
    calls
}

/// Nanoseconds per call over this many calls.
fn time<T>(call: &mut impl FnMut() -> T, calls: u32) -> f64 {
    let start = Instant::now();
    for _ in 0..calls {
        black_box(call());
    }
    start.elapsed().as_nanos() as f64 / f64::from(calls)
}

pub fn heading(title: &str) {
    println!(
        "{title:<18} {:>14} {:>14} {:>14} {:>14} {:>8}",
        "archive ns", "plain ns", "archive GB/s", "plain GB/s", "ratio"
    );
}

/// `bytes` is what one call works through; bytes per nanosecond are GB/s.
pub fn row(label: &str, bytes: usize, times: &Times) {
    let Times { archive, plain } = times;
    println!(
        "{label:<18} {archive:>14.1} {plain:>14.1} {:>14.2} {:>14.2} {:>8.2}",
        bytes as f64 / archive,
        bytes as f64 / plain,
        plain / archive
    );
}

/// The same for many lookups at once: how many, and the times of one of them.
pub fn lookups_heading(title: &str) {
    println!(
        "{title:<18} {:>14} {:>14} {:>14} {:>8}",
        "lookups", "archive ns", "plain ns", "ratio"
    );
}

pub fn lookups_row(label: &str, lookups: usize, times: &Times) {
    let Times { archive, plain } = times;
    println!(
        "{label:<18} {lookups:>14} {archive:>14.1} {plain:>14.1} {:>8.2}",
        plain / archive
    );
}

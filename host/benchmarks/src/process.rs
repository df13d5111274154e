//! Times other programs.
use std::io::{copy, sink};
use std::process::{Child, Command, Stdio};
use std::time::{Duration, Instant};

/// The wall time of a program from its start to its end, the best of some runs. None where it can't
/// be run, or does not end well. What it prints is thrown away.
pub fn time(runs: usize, command: impl Fn() -> Command) -> Option<Duration> {
    let mut least = Duration::MAX;
    for _ in 0..runs {
        let mut command = command();
        command.stdout(Stdio::null()).stderr(Stdio::null());
        let start = Instant::now();
        if !command.status().ok()?.success() {
            return None;
        }
        least = least.min(start.elapsed());
    }
    Some(least)
}

/// What the processor spent on a program with all its threads, the mean of some runs. None as for
/// `time`, or where the system does not tell. What it prints is thrown away.
pub fn mean(runs: u32, command: impl Fn() -> Command) -> Option<Duration> {
    let start = spent_on_all()?;
    for _ in 0..runs {
        let mut command = command();
        command.stdout(Stdio::null()).stderr(Stdio::null());
        if !command.status().ok()?.success() {
            return None;
        }
    }
    Some((spent_on_all()? - start) / runs)
}

/// What the processor spent on all programs that this one has waited for, in hundredths of a second.
fn spent_on_all() -> Option<Duration> {
    let text = std::fs::read_to_string("/proc/self/stat").ok()?;
    // The name stands in parentheses; cutime and cstime are the 14th and 15th word after it.
    let words: Vec<&str> = text.rsplit(')').next()?.split_whitespace().collect();
    let ticks = |place: usize| words.get(place)?.parse::<u64>().ok();
    Some(Duration::from_millis(10 * (ticks(13)? + ticks(14)?)))
}

/// The microseconds that the processor spent on each of some programs, the best of some runs in turns.
/// None where one can't be run, does not end well, or the system does not tell.
pub fn spent<const N: usize>(runs: usize, commands: [&dyn Fn() -> Command; N]) -> [Option<f64>; N] {
    let mut least = [Some(f64::INFINITY); N];
    for _ in 0..runs {
        for (least, command) in least.iter_mut().zip(commands) {
            if let Some(known) = *least {
                *least = spent_once(command()).map(|spent| known.min(spent));
            }
        }
    }
    least
}

fn spent_once(mut command: Command) -> Option<f64> {
    command.stdout(Stdio::piped()).stderr(Stdio::null());
    let mut child = command.spawn().ok()?;
    copy(&mut child.stdout.take()?, &mut sink()).ok()?;
    let spent = at_its_end(&child);
    let ended_well = child.wait().ok()?.success();
    spent.filter(|_| ended_well).map(|it| it as f64 / 1e3)
}

/// The nanoseconds that the processor spent on a process which ends and is not waited for yet.
fn at_its_end(child: &Child) -> Option<u64> {
    let read = |file: &str| std::fs::read_to_string(format!("/proc/{}/{file}", child.id())).ok();
    // The state stands after the name, which is in parentheses.
    while !read("stat")?.rsplit(')').next()?.starts_with(" Z") {
        std::thread::sleep(Duration::from_micros(50));
    }
    read("schedstat")?.split(' ').next()?.parse().ok()
}

/// journalctl with these arguments.
pub fn journalctl(arguments: &[&str]) -> Command {
    let mut command = Command::new("journalctl");
    command.args(arguments).stdin(Stdio::null());
    command
}

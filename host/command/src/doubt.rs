//! Stamps that the rules take and that are hardly meant: journalctl does not show them, or they are
//! far in the future, after which no right time can follow in the file.
use crate::fault::Fault;
use crate::stamps::Wished;
use crate::{ids, system, times};
use std::path::Path;
use std::time::{SystemTime, UNIX_EPOCH};
use wrapper::Request;

/// journalctl takes times in microseconds below this one, which is in the year 3111.
const LATEST: u64 = 1 << 55;
/// In microseconds.
const DAY: u64 = 86_400_000_000;

/// What is the matter with the stamps of an append, unless it is wanted anyway.
pub fn none(path: &Path, wished: &Wished, request: &Request) -> Result<(), Fault> {
    let why = if wished.anyway { None } else { why(request) };
    why.map_or(Ok(()), |why| Err(Fault::doubtful(path, why)))
}

fn why(request: &Request) -> Option<String> {
    let (realtime, monotonic) = (request.realtime, request.monotonic);
    let hidden = "journalctl shows no entry of it, only of";
    if !(1..LATEST).contains(&realtime) {
        return Some(format!(
            "--time {realtime}: {hidden} 1 to 2^55 - 1 microseconds since 1970"
        ));
    }
    if monotonic >= LATEST {
        return Some(format!(
            "--monotonic {monotonic}: {hidden} 0 to 2^55 - 1 microseconds"
        ));
    }
    if *request.boot == [0; 16] {
        return Some("--boot 0: journalctl may not show an entry without a boot".to_string());
    }
    // A clock before 1970 is as far behind as one at its start.
    let now = SystemTime::now().duration_since(UNIX_EPOCH);
    let now = now.map_or(0, |since| since.as_micros() as u64);
    if realtime > now + DAY {
        return Some(format!(
            "--time {} ({realtime}): this is more than a day past this machine's clock, {}",
            times::shown(realtime),
            times::shown(now),
        ));
    }
    // The clock of another boot is not known here.
    let this_boot = ids::boot().is_ok_and(|boot| boot == *request.boot);
    match system::monotonic() {
        Ok(now) if this_boot && monotonic > now + DAY => Some(format!(
            "--monotonic {monotonic}: this is more than a day past this machine's clock, {now}"
        )),
        _ => None,
    }
}

//! The zone of local times, which the system takes from the variable TZ.
use crate::calendar::DAY;
use crate::system;
use crate::text::shown;
use std::ffi::OsStr;
use std::fs::File;
use std::io::{Read, Write};
use std::os::unix::ffi::OsStrExt;
use std::path::Path;
use std::sync::Once;

/// The instant of a local time, as seconds without a zone. Where the clock was put back, a time
/// comes twice; where it was put forward, some never come.
pub fn from_local(naive: i64) -> Result<i64, String> {
    if let Some(zone) = unknown() {
        return Err(format!(
            "TZ is {zone}, which is no zone here: add one, like +0100"
        ));
    }
    let east = |at: i64| system::local(at).map(|local| local.east);
    // Zones are at most a day from UTC, and change their clocks less often than every other day.
    let mut found: Vec<i64> = [naive - DAY, naive + DAY]
        .into_iter()
        .filter_map(|near| Some(naive - east(near)?))
        .filter(|&instant| east(instant) == Some(naive - instant))
        .collect();
    found.dedup();
    match found[..] {
        [] => Err("the clock was put forward over this local time".to_string()),
        [instant] => Ok(instant),
        _ => Err("the clock showed this local time twice: add the zone, as list prints it".into()),
    }
}

/// Says once on standard error that local times are in UTC, if TZ names no zone.
pub fn say_if_unknown() {
    static SAID: Once = Once::new();
    SAID.call_once(|| {
        if let Some(zone) = unknown() {
            let words = format!("TZ is {zone}, which is no zone here: times are in UTC");
            let _ = writeln!(std::io::stderr(), "journal: {words}");
        }
    });
}

/// The value of TZ if it names no zone here. The C library takes UTC then, without a word.
fn unknown() -> Option<String> {
    let value = std::env::var_os("TZ")?;
    let name = value.as_bytes();
    let name = name.strip_prefix(b":").unwrap_or(name);
    let known = name.is_empty() || is_utc(name) || is_rule(name) || has_file(name);
    (!known).then(|| shown(value.as_bytes()))
}

/// UTC is the same with a file and without one.
fn is_utc(name: &[u8]) -> bool {
    [&b"UTC"[..], b"GMT", b"Etc/UTC"].contains(&name)
}

/// Whether it begins as rules do, by a name of three letters or more, or one in angle brackets, and
/// hours: `CET-1CEST,M3.5.0,M10.5.0/3`.
fn is_rule(name: &[u8]) -> bool {
    let letters = |byte: &u8| byte.is_ascii_alphabetic();
    let end = match name {
        [b'<', rest @ ..] => rest.iter().position(|&byte| byte == b'>').map(|at| at + 2),
        _ => name.iter().position(|byte| !letters(byte)),
    };
    match end.map(|end| (end, &name[end..])) {
        Some((3.., [b'+' | b'-', digit, ..] | [digit, ..])) => digit.is_ascii_digit(),
        _ => false,
    }
}

/// Whether there is a file of this name where the system keeps its zones.
fn has_file(name: &[u8]) -> bool {
    let folder = std::env::var_os("TZDIR").unwrap_or("/usr/share/zoneinfo".into());
    let mut start = [0; 4];
    let file = File::open(Path::new(&folder).join(OsStr::from_bytes(name)));
    file.and_then(|mut file| file.read_exact(&mut start))
        .is_ok()
        && start == *b"TZif"
}

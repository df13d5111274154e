//! Wall times: microseconds since 1970, and local time.
use crate::calendar::{self, DAY};
use crate::{system, zone};
use std::time::{SystemTime, UNIX_EPOCH};

const MICROSECONDS: u64 = 1_000_000;

/// Local time with its microseconds and how far it is ahead of UTC: `2023-11-14 23:13:20.000001
/// +0100`.
pub fn shown(realtime: u64) -> String {
    zone::say_if_unknown();
    let (seconds, fraction) = (realtime / MICROSECONDS, realtime % MICROSECONDS);
    let Some(local) = system::local(seconds as i64) else {
        return "no local time".to_string();
    };
    let year = 1900 + i64::from(local.year);
    let month = local.month + 1;
    let (sign, east) = match local.east {
        0.. => ('+', local.east),
        _ => ('-', -local.east),
    };
    format!(
        "{year:04}-{month:02}-{:02} {:02}:{:02}:{:02}.{fraction:06} {sign}{:02}{:02}",
        local.day,
        local.hour,
        local.minute,
        local.second,
        east / 3600,
        east / 60 % 60,
    )
}

/// The present.
pub fn now() -> Result<u64, String> {
    let since = SystemTime::now().duration_since(UNIX_EPOCH);
    let since = since.map_err(|_| "this machine's clock is before 1970")?;
    Ok(since.as_micros() as u64)
}

/// A wall time as it is typed: a number of microseconds, `now`, or a date, a time of day, or both
/// with a space or a T between them, and then a zone or none. What `shown` prints is such a time.
pub fn parsed(text: &str) -> Result<u64, String> {
    if !text.is_empty() && text.bytes().all(|byte| byte.is_ascii_digit()) {
        return text.parse().map_err(|_| "a number above 2^64 - 1".into());
    }
    if text == "now" {
        return now();
    }
    let form = || format!("no time: {FORM}");
    let (date, time) = match text.split_once([' ', 'T']) {
        _ if !text.contains(':') => (Some(text), None),
        Some((date, time)) if !date.contains(':') => (Some(date), Some(time)),
        _ => (None, Some(text)),
    };
    let days = match date {
        Some(date) => Some(calendar::date(date).ok_or_else(form)?),
        None => None,
    };
    // A zone follows at once, or after a space.
    let (time, zone) = match time.and_then(|time| Some((time, time.find([' ', '+', '-', 'Z'])?))) {
        Some((time, at)) => (Some(&time[..at]), Some(&time[at..])),
        None => (time, None),
    };
    let (seconds, fraction) = match time {
        Some(time) => calendar::time_of_day(time).ok_or_else(form)?,
        None => (0, 0),
    };
    let east = zone.map(|zone| {
        let zone = zone.strip_prefix(' ').unwrap_or(zone);
        calendar::east(zone).ok_or("no zone: it is like +0100")
    });
    let east = east.transpose()?;
    let days = days.map_or_else(|| today(east), Ok)?;
    let seconds = match east {
        Some(east) => days * DAY + seconds - east,
        None => zone::from_local(days * DAY + seconds)?,
    };
    let seconds = u64::try_from(seconds).map_err(|_| "before 1970")?;
    let whole = seconds.checked_mul(MICROSECONDS).ok_or("too late")?;
    whole.checked_add(fraction).ok_or("too late".into())
}

const FORM: &str = "it is like 'YYYY-MM-DD HH:MM:SS', with a zone or none, a date, a time of day, \
                    now, or microseconds";

/// The days from 1970 to the present date, so far ahead of UTC, or in local time.
fn today(east: Option<i64>) -> Result<i64, String> {
    let now = (now()? / MICROSECONDS) as i64;
    let local = || system::local(now).map(|local| local.east);
    let east = east.or_else(local).ok_or("no local time")?;
    Ok((now + east).div_euclid(DAY))
}

//! Dates and times of day as numbers.
use std::ops::RangeInclusive;

pub const DAY: i64 = 86_400;

/// `YYYY-MM-DD`: days since 1970.
pub fn date(text: &str) -> Option<i64> {
    let [year, month, day] = numbers(text, '-', [4..=6, 2..=2, 2..=2])?;
    let right = (1..=12).contains(&month) && (1..=days_in(year, month)).contains(&day);
    right.then(|| {
        let earlier: i64 = (1..month).map(|month| days_in(year, month)).sum();
        days_before(year) - days_before(1970) + earlier + day - 1
    })
}

/// `HH:MM` or `HH:MM:SS`, this with up to six digits of a fraction after a point: seconds, and
/// microseconds.
pub fn time_of_day(text: &str) -> Option<(i64, u64)> {
    let ([hour, minute, second], fraction) = match text.split_once('.') {
        Some((text, digits)) => {
            let [number] = numbers(digits, '.', [1..=6])?;
            let zeros = 6 - digits.len() as u32;
            let fraction = number as u64 * 10u64.pow(zeros);
            (numbers(text, ':', [2..=2, 2..=2, 2..=2])?, fraction)
        }
        None => match numbers(text, ':', [2..=2, 2..=2]) {
            Some([hour, minute]) => ([hour, minute, 0], 0),
            None => (numbers(text, ':', [2..=2, 2..=2, 2..=2])?, 0),
        },
    };
    let right = hour < 24 && minute < 60 && second < 60;
    right.then_some((hour * 3600 + minute * 60 + second, fraction))
}

/// `+HHMM`, `+HH:MM` or `+HH`, also with a minus, in seconds; `Z` is 0.
pub fn east(zone: &str) -> Option<i64> {
    let (sign, digits) = match zone.split_at_checked(1)? {
        ("Z", "") => return Some(0),
        ("+", digits) => (1, digits),
        ("-", digits) => (-1, digits),
        _ => return None,
    };
    let [hours, minutes] = match numbers(digits, ':', [4..=4]) {
        Some([number]) => [number / 100, number % 100],
        None => match numbers(digits, ':', [2..=2]) {
            Some([hours]) => [hours, 0],
            None => numbers(digits, ':', [2..=2, 2..=2])?,
        },
    };
    (hours < 24 && minutes < 60).then_some(sign * (hours * 3600 + minutes * 60))
}

/// Numbers of so many digits each, with one character between them.
fn numbers<const N: usize>(
    text: &str,
    between: char,
    digits: [RangeInclusive<usize>; N],
) -> Option<[i64; N]> {
    let parts: Vec<&str> = text.split(between).collect();
    let right = |(part, digits): (&&str, &RangeInclusive<usize>)| {
        digits.contains(&part.len()) && part.bytes().all(|byte| byte.is_ascii_digit())
    };
    if parts.len() != N || !parts.iter().zip(&digits).all(right) {
        return None;
    }
    let all: Option<Vec<i64>> = parts.iter().map(|part| part.parse().ok()).collect();
    all?.try_into().ok()
}

fn days_in(year: i64, month: i64) -> i64 {
    let leap = year % 4 == 0 && (year % 100 != 0 || year % 400 == 0);
    match month {
        2 if leap => 29,
        2 => 28,
        4 | 6 | 9 | 11 => 30,
        _ => 31,
    }
}

/// The days of all years before one, from the year 1 on.
fn days_before(year: i64) -> i64 {
    let past = year - 1;
    365 * past + past / 4 - past / 100 + past / 400
}

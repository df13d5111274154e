//! Why a text is not taken as an entry. The number is the library's; the words are worked out from the text.
use crate::fronts::{fields, Field};
use crate::payload::is_reserved;
use crate::text::start;
use crate::why;
use wrapper::Refusal;

/// A sentence for a person.
pub fn why(text: &[u8], refusal: Refusal) -> String {
    let why = match (fields(text), refusal.number()) {
        _ if text.starts_with(JOURNAL) => Some(A_JOURNAL.to_string()),
        (Err(broken), _) => Some(broken),
        (Ok(fields), 23) => stamp(&fields),
        (Ok(fields), 24) => missing(&fields),
        (Ok(fields), _) => other(&fields),
    };
    why.unwrap_or(refusal.sentence().to_string())
}

/// What a journal file begins with.
const JOURNAL: &[u8] = b"LPKSHHRH";
const A_JOURNAL: &str = "this is a journal file, and not the text of one: give what export prints";

/// A stamp, and how it is written.
struct Stamp {
    name: &'static str,
    is_right: fn(&[u8]) -> bool,
    rule: &'static str,
}

const STAMPS: [Stamp; 3] = [
    Stamp {
        name: "__REALTIME_TIMESTAMP",
        is_right: is_time,
        rule: TIME,
    },
    Stamp {
        name: "__MONOTONIC_TIMESTAMP",
        is_right: is_time,
        rule: TIME,
    },
    Stamp {
        name: "_BOOT_ID",
        is_right: is_id,
        rule: "it is 32 of 0-9 and a-f",
    },
];
const TIME: &str = "it is 1 to 20 digits, and at most 2^64 - 1";

fn is_time(value: &[u8]) -> bool {
    let digits = (1..=20).contains(&value.len()) && value.iter().all(u8::is_ascii_digit);
    let text = std::str::from_utf8(value).unwrap_or_default();
    digits && text.parse::<u64>().is_ok()
}

fn is_id(value: &[u8]) -> bool {
    let digit = |byte: &u8| matches!(byte, b'0'..=b'9' | b'a'..=b'f');
    value.len() == 32 && value.iter().all(digit)
}

impl Stamp {
    /// What a text has of it.
    fn values<'a>(&self, fields: &'a [Field]) -> Vec<&'a [u8]> {
        let of_it = |field: &&Field| field.name == self.name.as_bytes();
        fields.iter().filter(of_it).map(|it| it.value).collect()
    }
}

/// The first stamp that is not written as it has to be, or is given twice.
fn stamp(fields: &[Field]) -> Option<String> {
    STAMPS.iter().find_map(|stamp| {
        let (name, values) = (stamp.name, stamp.values(fields));
        let wrong = values.iter().find(|value| !(stamp.is_right)(value));
        let twice = || (values.len() > 1).then(|| format!("{name} is given twice"));
        wrong
            .map(|value| format!("{name} is {}: {}", given(value), stamp.rule))
            .or_else(twice)
    })
}

/// The stamps that are not there.
fn missing(fields: &[Field]) -> Option<String> {
    let missing = STAMPS.iter().filter(|it| it.values(fields).is_empty());
    let missing = Vec::from_iter(missing.map(|stamp| stamp.name));
    (!missing.is_empty()).then(|| format!("it has no {}", missing.join(" and no ")))
}

/// The first other field that can't be taken, or none that can.
fn other(fields: &[Field]) -> Option<String> {
    let others = fields.iter().filter(|field| !is_reserved(field.name));
    let payloads = others.map(|field| [field.name, b"=", field.value].concat());
    let payloads = Vec::from_iter(payloads);
    let payloads = Vec::from_iter(payloads.iter().map(Vec::as_slice));
    match payloads[..] {
        [] => Some("it has stamps alone, and no field".to_string()),
        _ => why::field(&payloads),
    }
}

fn given(value: &[u8]) -> String {
    match value {
        [] => "empty".to_string(),
        _ => start(value),
    }
}

//! An entry read back from its text: "Read one such entry back, each field in either form, a text value any
//! bytes but 10, into an append's field buffer, in order, and stamps".
use super::exchange::{set_apart, Stamps, BOOT_ID, MONOTONIC, REALTIME};
use super::image::le64;
use super::refusal::clause::*;
use super::request::{packed, sixteen};

/// What is read. "Repeats stay in the buffer and are counted."
#[derive(Clone, Debug, PartialEq, Eq)]
pub struct Entry {
    pub stamps: Stamps,
    /// An append's field buffer.
    pub fields: Vec<u8>,
}

/// What is said of it: the refusal and nothing else; or the stamps, the boot id "as two little-endian words",
/// and the length of the fields.
#[derive(Clone, Copy, Debug, Default, PartialEq, Eq)]
pub struct Imported {
    pub refusal: u64,
    pub realtime: u64,
    pub monotonic: u64,
    pub boot_low: u64,
    pub boot_high: u64,
    pub len: u64,
}

/// A name and a value, whatever form they came in.
type Field = (Vec<u8>, Vec<u8>);

/// The bytes up to the next newline, which goes too.
fn line(rest: &mut impl Iterator<Item = u8>) -> Result<Vec<u8>, Clause> {
    let mut line = Vec::new();
    for byte in rest {
        if byte == b'\n' {
            return Ok(line);
        }
        line.push(byte);
    }
    match line.is_empty() {
        true => Err(NO_EMPTY_LINE),
        false => Err(LINE_CUT_SHORT),
    }
}

/// What is behind the name in "the form with a 64-bit length". "Lengths near 2^64 must not wrap": the bytes
/// are taken one by one, and no sum is made.
fn value(rest: &mut impl Iterator<Item = u8>) -> Result<Vec<u8>, Clause> {
    let length: Vec<u8> = rest.take(8).collect();
    if length.len() < 8 {
        return Err(LENGTH_CUT_SHORT);
    }
    let mut value = Vec::new();
    for _ in 0..le64(&length, 0) {
        value.push(rest.next().ok_or(VALUE_CUT_SHORT)?);
    }
    match rest.next() {
        Some(b'\n') => Ok(value),
        _ => Err(NO_NEWLINE_BEHIND),
    }
}

/// The fields up to where the text goes wrong, if it does: "text that is not such fields and one empty line".
fn fields(text: &[u8]) -> (Vec<Field>, Option<Clause>) {
    let mut fields = Vec::new();
    let rest = &mut text.iter().copied();
    loop {
        let line = match line(rest) {
            Ok(line) => line,
            Err(clause) => return (fields, Some(clause)),
        };
        if line.is_empty() {
            let behind = rest.next().map(|_| BYTES_BEHIND);
            return (fields, behind);
        }
        let sign = line.iter().position(|&byte| byte == b'=');
        match sign {
            Some(end) => fields.push((line[..end].to_vec(), line[end + 1..].to_vec())),
            None => match value(rest) {
                Ok(value) => fields.push((line, value)),
                Err(clause) => return (fields, Some(clause)),
            },
        }
    }
}

/// "a time not 1 to 20 digits within 64 bits"
fn time(value: &[u8]) -> Result<u64, Clause> {
    if !(1..=20).contains(&value.len()) || !value.iter().all(u8::is_ascii_digit) {
        return Err(TIME_DIGITS);
    }
    // Twenty digits are far below 2^128.
    let digits = value.iter().map(|byte| u128::from(byte - b'0'));
    let number = digits.fold(0, |number, digit| 10 * number + digit);
    number.try_into().map_err(|_| TIME_ABOVE)
}

/// "32 lower-case hex digits", those of the first byte first.
fn boot_id(value: &[u8]) -> Result<[u8; 16], Clause> {
    let digit = |byte: &u8| b"0123456789abcdef".iter().position(|it| it == byte);
    let digits: Option<Vec<usize>> = value.iter().map(digit).collect();
    match digits {
        Some(digits) if digits.len() == 32 => Ok(std::array::from_fn(|n| {
            (16 * digits[2 * n] + digits[2 * n + 1]) as u8
        })),
        _ => Err(BOOT_ID_DIGITS),
    }
}

/// A stamp: "in reading each must be present once". Where something is wrong with it that is added to what
/// was found.
fn stamp<T: Default>(
    fields: &[Field],
    (name, missing): (&[u8], Clause),
    read: fn(&[u8]) -> Result<T, Clause>,
    found: &mut Vec<Clause>,
) -> T {
    let of_it = fields.iter().filter(|field| field.0 == name);
    let values: Vec<_> = of_it.map(|field| read(&field.1)).collect();
    match values.len() {
        0 => found.push(missing),
        1 => {}
        _ => found.push(STAMP_TWICE),
    }
    let mut stamp = T::default();
    for value in values {
        match value {
            Ok(value) => stamp = value,
            Err(clause) => found.push(clause),
        }
    }
    stamp
}

/// The entry; or the clauses of the first number that applies: "23 over the whole text, then 24, then 16 on
/// the fields as they would be packed".
pub fn import(text: &[u8]) -> Result<Entry, Vec<Clause>> {
    let (fields, wrong) = fields(text);
    let mut found = Vec::from_iter(wrong);
    let stamps = Stamps {
        realtime: stamp(&fields, (REALTIME, NO_REALTIME), time, &mut found),
        monotonic: stamp(&fields, (MONOTONIC, NO_MONOTONIC), time, &mut found),
        boot_id: stamp(&fields, (BOOT_ID, NO_BOOT_ID), boot_id, &mut found),
    };
    // "other names that begin with two underscores are passed over"
    let payloads = fields.iter().filter(|field| !set_apart(&field.0));
    let payloads: Vec<_> = payloads
        .map(|(name, value)| [name, &b"="[..], value].concat())
        .collect();
    let payloads: Vec<&[u8]> = payloads.iter().map(|payload| &payload[..]).collect();
    let fields = packed(&payloads);
    sixteen(&fields, &mut found);
    for number in [23, 24, 16] {
        if found.iter().any(|clause| clause.number == number) {
            found.retain(|clause| clause.number == number);
            return Err(found);
        }
    }
    Ok(Entry { stamps, fields })
}

/// What is read, or its refusal, with a lent buffer for the fields: last "28 for the field buffer". Bytes
/// behind them stay.
pub fn write(read: &Result<Entry, Vec<Clause>>, lent: &mut [u8]) -> Imported {
    let refused = |clause: Clause| Imported {
        refusal: clause.number,
        ..Imported::default()
    };
    let Entry { stamps, fields } = match read {
        Ok(entry) => entry,
        Err(found) => return refused(found[0]),
    };
    let Some(front) = lent.get_mut(..fields.len()) else {
        return refused(OUTPUT_SHORT);
    };
    front.copy_from_slice(fields);
    Imported {
        refusal: 0,
        realtime: stamps.realtime,
        monotonic: stamps.monotonic,
        boot_low: le64(&stamps.boot_id, 0),
        boot_high: le64(&stamps.boot_id, 8),
        len: fields.len() as u64,
    }
}

//! The shape of entries as it is typed for `room`: fields NAME=BYTES or NAME=BYTES/VALUES.
use crate::arguments::number;
use crate::fault::Fault;
use crate::text::{counted, shown};
use crate::words::wrong;
use std::ffi::{OsStr, OsString};
use std::os::unix::ffi::OsStrExt;

/// A field that each entry has.
pub struct Field {
    pub name: Vec<u8>,
    /// Of its value.
    pub bytes: u64,
    /// So many different values come in turn; none: each entry has a new one.
    values: Option<u64>,
}

/// An entry has at most so many fields, of so many bytes each: 16.
const MOST_FIELDS: usize = 64;
const MOST_BYTES: u64 = 4_096;
const LONGEST_NAME: usize = 64;

impl Field {
    /// The bytes of `NAME=value`.
    pub fn payload(&self) -> u64 {
        self.name.len() as u64 + 1 + self.bytes
    }

    /// How many different values so many entries have.
    pub fn values(&self, entries: u64) -> u64 {
        self.values.unwrap_or(entries).min(entries)
    }

    fn typed(word: &OsStr, entries: u64) -> Result<Field, String> {
        let text = word.as_bytes();
        let form = || "a field is typed here as NAME=BYTES or NAME=BYTES/VALUES".to_string();
        let end = text
            .iter()
            .position(|&byte| byte == b'=')
            .ok_or_else(form)?;
        let (name, rest) = (&text[..end], &text[end + 1..]);
        let numbers = rest.split(|&byte| byte == b'/').map(OsStr::from_bytes);
        let numbers: Result<Vec<u64>, String> = numbers.map(number).collect();
        let (bytes, values) = match numbers?[..] {
            [bytes] => (bytes, None),
            [bytes, values] => (bytes, Some(values)),
            _ => return Err(form()),
        };
        let field = Field {
            name: name_of(name)?,
            bytes,
            values,
        };
        field.right(entries).map(|()| field)
    }

    /// Whether there are such values.
    fn right(&self, entries: u64) -> Result<(), String> {
        let room = MOST_BYTES - 1 - self.name.len() as u64;
        if self.bytes > room {
            return Err(format!(
                "a field has at most {MOST_BYTES} bytes with its name and the =, so this value {room}"
            ));
        }
        if self.values == Some(0) {
            return Err("a field has at least one value".to_string());
        }
        let wanted = self.values.unwrap_or(entries);
        match 256u64.checked_pow(self.bytes.min(8) as u32) {
            Some(different) if different < wanted => {
                let bytes = counted(self.bytes as usize, "byte", "bytes");
                Err(format!(
                    "{wanted} different values are wanted, and with {bytes} there are {different}"
                ))
            }
            _ => Ok(()),
        }
    }
}

fn name_of(name: &[u8]) -> Result<Vec<u8>, String> {
    let right = |byte: &u8| byte.is_ascii_uppercase() || byte.is_ascii_digit() || *byte == b'_';
    let starts = name.first().is_some_and(|byte| !byte.is_ascii_digit());
    match starts && name.len() <= LONGEST_NAME && name.iter().all(right) {
        true => Ok(name.to_vec()),
        false => Err(format!(
            "a name is 1 to {LONGEST_NAME} of A-Z, 0-9 and _, and starts with no digit"
        )),
    }
}

/// The fields of each of so many entries.
pub fn fields(words: &[OsString], entries: u64) -> Result<Vec<Field>, Fault> {
    let mut fields: Vec<Field> = Vec::new();
    for word in words {
        let field = Field::typed(word, entries).map_err(|why| wrong("field", word, &why))?;
        if fields.iter().any(|other| other.name == field.name) {
            let name = shown(&field.name);
            return Err(Fault::usage(format!("the field {name} is given twice")));
        }
        fields.push(field);
    }
    match fields.len() {
        0 => Err(Fault::usage("a field NAME=BYTES is missing")),
        1..=MOST_FIELDS => Ok(fields),
        count => Err(Fault::usage(format!(
            "{count} fields are given: an entry takes {MOST_FIELDS}"
        ))),
    }
}

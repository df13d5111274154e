//! Why an append is refused: the one condition of the rule that applies, and the argument that it
//! is about. The number is the library's; the words are worked out from the file and the request.
use crate::ids;
use crate::stamps::Wished;
use crate::text::{shown, start};
use wrapper::{Entry, Refusal, Request};

/// An append, and the file that it is for.
pub struct Append<'a> {
    pub image: &'a [u8],
    pub last: Option<&'a Entry<'a>>,
    pub wished: &'a Wished,
    pub payloads: Vec<&'a [u8]>,
    pub request: &'a Request<'a>,
    /// Whether its times are those of a text, and were neither typed nor chosen here.
    pub of_a_text: bool,
    /// The sequence number that a next file has to go on with, should this one be full.
    pub next: u64,
}

impl Append<'_> {
    /// A sentence for a person; none where the refusal is not about the entry.
    pub fn refused(&self, refusal: Refusal) -> Option<String> {
        match refusal.number() {
            15 => Some(self.machine()),
            16 => field(&self.payloads),
            17 => self.stamps(),
            18 => Some(self.full()),
            _ => None,
        }
    }

    fn machine(&self) -> String {
        let own = ids::shown(&ids::machine_of(self.image));
        let other = ids::shown(self.request.machine);
        match self.wished.machine {
            Some(_) => format!("--machine {other}: the file belongs to machine {own}"),
            None => format!(
                "the file belongs to machine {own}, and this is machine {other}: append to it \
                 there, or say by --machine that it is meant"
            ),
        }
    }

    /// The stamps in the order of the rule, against the last entry's.
    fn stamps(&self) -> Option<String> {
        let request = self.request;
        if request.seqnum == 0 {
            return Some("--seqnum 0: sequence numbers begin with 1".to_string());
        }
        let last = self.last?;
        if request.seqnum <= last.seqnum {
            return Some(match self.wished.seqnum {
                Some(seqnum) => format!(
                    "--seqnum {seqnum}: the last entry has sequence number {}, and the new one \
                     needs a higher one",
                    last.seqnum
                ),
                None => "the last entry has the greatest sequence number that there is: append to \
                         a new file"
                    .to_string(),
            });
        }
        let (new, old) = (request.monotonic, last.monotonic);
        if *request.boot == last.boot_id && new < old {
            return Some(match self.wished.monotonic {
                Some(_) => {
                    format!("--monotonic {new}: the last entry, of the same boot, has {old}")
                }
                None if self.of_a_text => format!(
                    "its monotonic time is {new}, and the entry before it in the file, of the same \
                     boot, has {old}"
                ),
                None => format!(
                    "this machine's monotonic clock shows {new}, and the last entry, of the same \
                     boot, has {old}: give --monotonic"
                ),
            });
        }
        None
    }

    /// What is left, and how to go on: a next file goes on with these numbers under the same id.
    fn full(&self) -> String {
        let word =
            |at: usize| u64::from_le_bytes(self.image[at..at + 8].try_into().expect("8 bytes"));
        let tail = word(136);
        let used = tail + word(tail as usize + 8).next_multiple_of(8);
        let end = word(88) + word(96);
        let left = end - used.min(end);
        let id: &[u8; 16] = self.image[72..88].try_into().expect("16 bytes");
        format!(
            "the file is full, {left} bytes are left: go on in a new one, made with --seqnum-id {}, \
             from --seqnum {} on",
            ids::shown(id),
            self.next,
        )
    }
}

/// The first field that can't be taken; or there are too many.
pub fn field(payloads: &[&[u8]]) -> Option<String> {
    let wrong = payloads.iter().zip(1..).find_map(|(payload, place)| {
        let what = wrong(payload)?;
        Some(format!("field {place}, {}: {what}", given(payload)))
    });
    let count = payloads.len();
    let many = format!("{count} fields are given: an entry takes 64, and repeats count");
    wrong.or((count > 64).then_some(many))
}

/// What is the matter with a field.
fn wrong(payload: &[u8]) -> Option<String> {
    if payload.len() > 4_096 {
        let length = payload.len();
        return Some(format!("it has {length} bytes, and 4096 are taken"));
    }
    let Some(end) = payload.iter().position(|&byte| byte == b'=') else {
        return Some("it has no =, a field is NAME=VALUE".to_string());
    };
    let name = &payload[..end];
    let right = |byte: &u8| byte.is_ascii_uppercase() || byte.is_ascii_digit() || *byte == b'_';
    match name {
        [] => Some("it has no name before the =".to_string()),
        [b'0'..=b'9', ..] => Some("a name does not start with a digit".to_string()),
        _ if name.len() > 64 => Some(format!("its name has {end} bytes, and 64 are taken")),
        _ => name.iter().position(|byte| !right(byte)).map(|place| {
            // A character of a name in UTF-8 may have several bytes.
            let text = String::from_utf8_lossy(&name[place..]);
            let character = text.chars().next().unwrap_or_default();
            let character = shown(character.to_string().as_bytes());
            format!("its name has '{character}', and only A-Z, 0-9 and _ are taken")
        }),
    }
}

/// A field as it was given.
fn given(payload: &[u8]) -> String {
    match payload {
        [] => "which is empty".to_string(),
        _ => start(payload),
    }
}

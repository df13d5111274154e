//! An entry as text and back in plain Rust: one pass to judge and measure, one to write, as the archive
//! has it.

const REALTIME: &[u8] = b"__REALTIME_TIMESTAMP";
const MONOTONIC: &[u8] = b"__MONOTONIC_TIMESTAMP";
const BOOT: &[u8] = b"_BOOT_ID";

/// The other payloads of packed fields, or none where 16 refuses them.
fn others(fields: &[u8]) -> Option<Vec<&[u8]>> {
    let mut others = Vec::with_capacity(64);
    let mut left = fields;
    while !left.is_empty() {
        let (head, rest) = left.split_first_chunk::<4>()?;
        let (payload, rest) = rest.split_at_checked(u32::from_le_bytes(*head) as usize)?;
        left = rest;
        let name = &payload[..equals(payload)];
        if is_reserved(name) {
            continue;
        }
        if others.len() == 64
            || payload.len() > 4_096
            || name.len() == payload.len()
            || !is_name(name)
        {
            return None;
        }
        others.push(payload);
    }
    (!others.is_empty()).then_some(others)
}

/// Where a line or payload has its first `=`, or its length.
fn equals(bytes: &[u8]) -> usize {
    let first = bytes.iter().position(|&byte| byte == b'=');
    first.unwrap_or(bytes.len())
}

fn is_reserved(name: &[u8]) -> bool {
    name == BOOT || name.starts_with(b"__")
}

fn is_name(name: &[u8]) -> bool {
    let good = |byte: &u8| matches!(byte, b'A'..=b'Z' | b'0'..=b'9' | b'_');
    (1..=64).contains(&name.len()) && name.iter().all(good) && !name[0].is_ascii_digit()
}

fn is_text(value: &[u8]) -> bool {
    value.iter().all(|byte| matches!(byte, 9 | 32..=126))
}

/// The refusal and the length of the text, which goes to the front of the buffer.
pub fn text(
    realtime: u64,
    monotonic: u64,
    boot: &[u8; 16],
    fields: &[u8],
    text: &mut [u8],
) -> (u64, u64) {
    let Some(others) = others(fields) else {
        return (16, 0);
    };
    let size = |payload: &&[u8]| match is_text(&payload[equals(payload) + 1..]) {
        true => payload.len() + 1,
        false => payload.len() + 9,
    };
    let digits = |time: u64| time.checked_ilog10().map_or(1, |log| log as usize + 1);
    let need = 88 + digits(realtime) + digits(monotonic) + others.iter().map(size).sum::<usize>();
    if text.len() < need {
        return (28, 0);
    }
    let mut out = Out { text, at: 0 };
    out.time(REALTIME, realtime);
    out.time(MONOTONIC, monotonic);
    out.put(BOOT);
    out.put(b"=");
    for byte in boot {
        let digit = |value: u8| b"0123456789abcdef"[value as usize];
        out.put(&[digit(byte >> 4), digit(byte & 15)]);
    }
    out.put(b"\n");
    for payload in others {
        let (name, value) = payload.split_at(equals(payload));
        let value = &value[1..];
        if is_text(value) {
            out.put(payload);
        } else {
            out.put(name);
            out.put(b"\n");
            out.put(&(value.len() as u64).to_le_bytes());
            out.put(value);
        }
        out.put(b"\n");
    }
    out.put(b"\n");
    (0, out.at as u64)
}

struct Out<'a> {
    text: &'a mut [u8],
    at: usize,
}

impl Out<'_> {
    fn put(&mut self, bytes: &[u8]) {
        self.text[self.at..self.at + bytes.len()].copy_from_slice(bytes);
        self.at += bytes.len();
    }

    fn time(&mut self, name: &[u8], time: u64) {
        self.put(name);
        self.put(b"=");
        let mut digits = [0; 20];
        let mut from = 20;
        let mut left = time;
        loop {
            from -= 1;
            digits[from] = b'0' + (left % 10) as u8;
            left /= 10;
            if left == 0 {
                break;
            }
        }
        self.put(&digits[from..]);
        self.put(b"\n");
    }
}

/// What a text says: both times, the boot id, and the length of the fields, which go to the front of the
/// buffer; or the refusal.
pub fn import(text: &[u8], buffer: &mut [u8]) -> Result<(u64, u64, [u8; 16], u64), u64> {
    let (mut times, mut boot) = ([None; 2], None);
    let (mut count, mut size, mut good) = (0, 0, true);
    let fields = || Fields { left: text };
    for field in fields() {
        let (name, value) = field.ok_or(23_u64)?;
        if name == REALTIME || name == MONOTONIC {
            let time = &mut times[(name == MONOTONIC) as usize];
            if time.replace(time_of(value).ok_or(23_u64)?).is_some() {
                return Err(23);
            }
        } else if name == BOOT {
            if boot.replace(boot_of(value).ok_or(23_u64)?).is_some() {
                return Err(23);
            }
        } else if !name.starts_with(b"__") {
            count += 1;
            let len = name.len() + 1 + value.len();
            good = good && count <= 64 && len <= 4_096 && is_name(name);
            size += if good { 4 + len } else { 0 };
        }
    }
    let (Some(realtime), Some(monotonic), Some(boot)) = (times[0], times[1], boot) else {
        return Err(24);
    };
    if !good || count == 0 {
        return Err(16);
    }
    if buffer.len() < size {
        return Err(28);
    }
    let mut out = Out {
        text: buffer,
        at: 0,
    };
    for (name, value) in fields().flatten() {
        if !is_reserved(name) {
            out.put(&((name.len() + 1 + value.len()) as u32).to_le_bytes());
            out.put(name);
            out.put(b"=");
            out.put(value);
        }
    }
    Ok((realtime, monotonic, boot, out.at as u64))
}

/// The fields of a text one after the other; none in one's place where the text is no entry's.
struct Fields<'a> {
    left: &'a [u8],
}

impl<'a> Iterator for Fields<'a> {
    type Item = Option<(&'a [u8], &'a [u8])>;

    fn next(&mut self) -> Option<Self::Item> {
        if self.left == b"\n" {
            return None;
        }
        let field = self.field();
        if field.is_none() {
            self.left = b"\n";
        }
        Some(field)
    }
}

impl<'a> Fields<'a> {
    fn field(&mut self) -> Option<(&'a [u8], &'a [u8])> {
        let end = self.left.iter().position(|&byte| byte == b'\n')?;
        let (line, rest) = (&self.left[..end], &self.left[end + 1..]);
        let name = equals(line);
        if line.is_empty() {
            return None;
        }
        if name < end {
            self.left = rest;
            return Some((&line[..name], &line[name + 1..]));
        }
        let (length, rest) = rest.split_first_chunk::<8>()?;
        let length = usize::try_from(u64::from_le_bytes(*length)).ok()?;
        let (value, rest) = rest.split_at_checked(length)?;
        self.left = rest.strip_prefix(b"\n")?;
        Some((line, value))
    }
}

fn time_of(value: &[u8]) -> Option<u64> {
    if !(1..=20).contains(&value.len()) || !value.iter().all(u8::is_ascii_digit) {
        return None;
    }
    let digits = value.iter().map(|byte| u64::from(byte - b'0'));
    digits
        .into_iter()
        .try_fold(0_u64, |sum, digit| sum.checked_mul(10)?.checked_add(digit))
}

fn boot_of(value: &[u8]) -> Option<[u8; 16]> {
    let digit = |byte: u8| match byte {
        b'0'..=b'9' => Some(byte - b'0'),
        b'a'..=b'f' => Some(byte - b'a' + 10),
        _ => None,
    };
    let value: &[u8; 32] = value.try_into().ok()?;
    let mut id = [0; 16];
    for (byte, pair) in id.iter_mut().zip(value.chunks_exact(2)) {
        *byte = digit(pair[0])? << 4 | digit(pair[1])?;
    }
    Some(id)
}

//! Bytes as a person can read them, on one line and without harm to a terminal.

/// Printing characters stand for themselves, but a backslash is `\\`. Every byte of anything else
/// is `\xNN`: control characters with newlines and tabs, characters that are not seen or turn the
/// line around, and bytes that are no UTF-8. So no two byte strings are shown alike.
pub fn shown(bytes: &[u8]) -> String {
    let mut text = String::with_capacity(bytes.len());
    for chunk in bytes.utf8_chunks() {
        for character in chunk.valid().chars() {
            match character {
                '\\' => text.push_str("\\\\"),
                _ if prints(character) => text.push(character),
                _ => hex(&mut text, character.encode_utf8(&mut [0; 4]).as_bytes()),
            }
        }
        hex(&mut text, chunk.invalid());
    }
    text
}

/// The bytes that are shown as this text. A backslash before anything else than a backslash or the
/// two digits of a byte is refused: shown it would be two, so it may be meant as itself or be half
/// of something.
pub fn typed(text: &[u8]) -> Result<Vec<u8>, String> {
    let (mut bytes, mut rest) = (Vec::with_capacity(text.len()), text);
    while let [first, after @ ..] = rest {
        let (byte, after) = match (first, after) {
            (b'\\', [b'\\', after @ ..]) => (b'\\', after),
            (b'\\', [b'x', high, low, after @ ..]) => (two_digits(*high, *low)?, after),
            (b'\\', _) => return Err(BACKSLASH.to_string()),
            (byte, after) => (*byte, after),
        };
        bytes.push(byte);
        rest = after;
    }
    Ok(bytes)
}

const BACKSLASH: &str = "a backslash is typed as \\\\ and a byte as \\xNN, as they are printed";

fn two_digits(high: u8, low: u8) -> Result<u8, String> {
    let digit = |byte: u8| char::from(byte).to_digit(16);
    match (digit(high), digit(low)) {
        (Some(high), Some(low)) => Ok((16 * high + low) as u8),
        _ => Err(BACKSLASH.to_string()),
    }
}

fn hex(text: &mut String, bytes: &[u8]) {
    for byte in bytes {
        text.push_str(&format!("\\x{byte:02x}"));
    }
}

/// Whether a character is seen on paper. Beyond ASCII the standard library knows: its escaping for
/// debugging leaves such a character alone, after another one also if it is an accent.
pub fn prints(character: char) -> bool {
    match character {
        ' '..='~' => true,
        _ if character.is_ascii() => false,
        _ => format!("a{character}").escape_debug().nth(1) == Some(character),
    }
}

/// Bytes as they are shown, or the start of them if they are long.
pub fn start(bytes: &[u8]) -> String {
    match bytes.split_at_checked(LONG) {
        Some((start, [_, ..])) => format!("{}..", shown(start)),
        _ => shown(bytes),
    }
}

const LONG: usize = 40;

/// A count and what is counted.
pub fn counted(count: usize, one: &str, more: &str) -> String {
    match count {
        1 => format!("1 {one}"),
        _ => format!("{count} {more}"),
    }
}

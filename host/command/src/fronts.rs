//! The text of entries in the Journal Export Format, a field at a time.
use crate::text::start;

/// A field as it stands in a text, in either form.
pub struct Field<'a> {
    pub name: &'a [u8],
    pub value: &'a [u8],
}

/// What stands at the front of a text.
pub enum Front<'a> {
    /// The empty line that ends an entry.
    End,
    /// A field, and how many bytes of the text it takes.
    Field(Field<'a>, usize),
    /// Neither, in words.
    Broken(String),
}

pub fn front(text: &[u8]) -> Front<'_> {
    let Some(end) = text.iter().position(|&byte| byte == b'\n') else {
        return Front::Broken(match text {
            [] => "the text ends before the empty line behind its fields".to_string(),
            line => format!("the text ends in the middle of the line {}", start(line)),
        });
    };
    let (line, rest) = (&text[..end], &text[end + 1..]);
    if line.is_empty() {
        return Front::End;
    }
    match line.iter().position(|&byte| byte == b'=') {
        Some(at) => {
            let (name, value) = (&line[..at], &line[at + 1..]);
            Front::Field(Field { name, value }, end + 1)
        }
        None => with_length(line, rest),
    }
}

/// A name, and then the length of its value in 8 bytes, the value and a newline.
fn with_length<'a>(name: &'a [u8], text: &'a [u8]) -> Front<'a> {
    let broken = |what: String| {
        let rule = "has no =, so that a length of 8 bytes, the value and a newline come after it";
        Front::Broken(format!("the line {} {rule}; {what}", start(name)))
    };
    let Some((length, rest)) = text.split_first_chunk() else {
        return broken("the text ends before that length".to_string());
    };
    let length = u64::from_le_bytes(*length);
    let split = usize::try_from(length).map(|length| rest.split_at_checked(length));
    match split {
        Ok(Some((value, [b'\n', ..]))) => {
            let size = name.len() + 1 + 8 + value.len() + 1;
            Front::Field(Field { name, value }, size)
        }
        Ok(Some((_, [_, ..]))) => {
            broken(format!("the length is {length}, and no newline is there"))
        }
        _ => broken(format!("the length is {length}, and the text ends before")),
    }
}

/// The fields of one entry, up to its empty line; or what is there in the place of one.
pub fn fields(mut text: &[u8]) -> Result<Vec<Field<'_>>, String> {
    let mut fields = Vec::new();
    loop {
        match front(text) {
            Front::End => return Ok(fields),
            Front::Field(field, size) => {
                fields.push(field);
                text = &text[size..];
            }
            Front::Broken(why) => return Err(why),
        }
    }
}

/// The length of the first entry with its empty line; of the whole text where it is broken before.
pub fn entry_len(text: &[u8]) -> usize {
    let mut at = 0;
    loop {
        match front(&text[at..]) {
            Front::End => return at + 1,
            Front::Field(_, size) => at += size,
            Front::Broken(_) => return text.len(),
        }
    }
}

//! A text of many entries in the Journal Export Format. It is cut into entries here, and each of them is judged
//! by the library, which takes exactly one: the first cut at a wrong place is refused, and nothing behind it is
//! looked at.
use crate::{fronts, why_text};
use wrapper::{import, Exchanged, Refusal};

/// The entries of a text up to the first bad one.
#[derive(Default)]
pub struct Texts {
    pub entries: Vec<Exchanged>,
    /// The lines on which these start.
    lines: Vec<usize>,
    /// Why the entry after them is refused.
    bad: Option<(Refusal, String)>,
}

/// The entries of a text. Empty lines between them are passed over.
pub fn judged(text: &[u8]) -> Texts {
    let mut texts = Texts::default();
    let (mut rest, mut line) = (text, 1);
    while !rest.is_empty() {
        let (entry, after) = rest.split_at(fronts::entry_len(rest));
        if entry != b"\n" {
            texts.lines.push(line);
            match import(entry) {
                Ok(entry) => texts.entries.push(entry),
                Err(refusal) => {
                    texts.bad = Some((refusal, why_text::why(entry, refusal)));
                    break;
                }
            }
        }
        // A newline in a value counts too: so `tail -n +LINE` has the rest.
        line += entry.iter().filter(|&&byte| byte == b'\n').count();
        rest = after;
    }
    texts
}

impl Texts {
    /// What is the matter with the entry after these.
    pub fn bad(&self) -> Option<(Refusal, String)> {
        let (refusal, why) = self.bad.as_ref()?;
        Some((*refusal, self.words(self.entries.len(), why)))
    }

    /// What is the matter with an entry, by its index, and what became of those before it.
    pub fn words(&self, index: usize, why: &str) -> String {
        let (number, line) = (index + 1, self.lines[index]);
        let done = match index {
            0 => "nothing is appended".to_string(),
            1 => "the entry before it is appended, and nothing from there on".to_string(),
            _ => format!("the {index} entries before it are appended, and nothing from there on"),
        };
        format!("entry {number} of the text, line {line}: {why}; {done}")
    }
}

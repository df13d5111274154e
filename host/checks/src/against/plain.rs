//! The plain reader of the archive against that of the reading, and against the archive's other reader.
use super::lent::Lent;
use super::lookups::{self, refused, words, Words};
use reading::ask::Question;
use reading::plain::Plain;
use wrapper::raw;

/// The archive's answer.
pub fn archive(image: &[u8], question: &Question) -> Words {
    use raw::plain::{by_payload, by_realtime, by_seqnum, entry, item, value};
    match question {
        Question::Entry(place) => Words::Number(entry(image, *place)),
        Question::FirstSeqnum(seqnum) => Words::Number(by_seqnum(image, *seqnum)),
        Question::FirstRealtime(realtime) => Words::Number(by_realtime(image, *realtime)),
        Question::Item(offset, place) => Words::Part(item(image, *offset, *place)),
        Question::Holding(payload, place) => Words::Number(by_payload(image, payload, *place)),
        Question::Payload(name, place) => Words::Part(value(image, name, *place)),
    }
}

/// The reading's.
pub fn read(opened: &Result<Plain, u64>, question: &Question) -> Words {
    match opened {
        Ok(plain) => words(question, plain.ask(question)),
        Err(number) => refused(question, *number),
    }
}

/// Puts questions to both readers of the archive, with the image amid other bytes: the answers; or what
/// differs. Both readers give the same ones, but that 14 is no refusal of the other.
pub fn compare(
    image: &[u8],
    opened: &Result<Plain, u64>,
    questions: &[Question],
    tried: u64,
) -> Result<Vec<Words>, String> {
    let number = opened.as_ref().err().copied().unwrap_or(0);
    let mut lent = Lent::new(image, tried);
    let other = raw::open(lent.bytes());
    if other != if number == 14 { 0 } else { number } {
        return Err(format!("refused {number}, and opening it answers {other}"));
    }
    let mut answers = Vec::new();
    for question in questions {
        let answer = archive(lent.bytes(), question);
        let should = read(opened, question);
        if answer != should {
            return Err(format!("{question:?}: {answer:?}, and not {should:?}"));
        }
        let other = lookups::archive(lent.bytes(), question);
        if number != 14 && answer != other {
            return Err(format!(
                "{question:?}: {answer:?}, and the other reader {other:?}"
            ));
        }
        answers.push(answer);
    }
    match lent.after() == Some(image) {
        true => Ok(answers),
        false => Err("the image or what is around it changed".to_string()),
    }
}

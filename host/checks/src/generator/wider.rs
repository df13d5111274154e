//! More questions: beside the arguments that an image has and far from them, and those to an image that
//! is refused.
use super::questions::Arguments;
use reading::ask::Question;
use reading::image::Image;
use reading::layout::kind;

/// More arguments than the generator has: next to those that are there, and far from all.
pub fn widen(arguments: &mut Arguments, length: u64) {
    for edge in [u64::MAX - 7, u64::MAX - 63, 1 << 32, 1 << 62] {
        arguments.seqnums.insert(edge);
        arguments.realtimes.insert(edge);
        arguments.offsets.insert(edge);
    }
    let about = |at: u64| [at.wrapping_sub(64), at.wrapping_sub(8), at, at + 1];
    arguments.offsets.extend(about(length));
    arguments.offsets.extend(about(length & !7));
    let same: Vec<u64> = arguments.offsets.iter().copied().step_by(5).collect();
    for offset in same {
        arguments.offsets.insert(offset ^ 1);
        arguments.offsets.insert(offset ^ 1 << 63);
        arguments.offsets.insert(offset ^ 1 << 32);
    }
    for all in [&mut arguments.payloads, &mut arguments.names] {
        let same: Vec<Vec<u8>> = all.iter().step_by(4).cloned().collect();
        for mut bytes in same {
            all.insert([&bytes[..], b"\0"].concat());
            // A letter in the other case.
            if let [first, rest @ ..] = &bytes[..] {
                all.insert([&[first ^ 0x20], rest].concat());
            }
            if let Some(last) = bytes.last_mut() {
                *last ^= 1;
                all.insert(bytes.clone());
                bytes.pop();
                all.insert(bytes);
            }
        }
        all.insert(vec![b'A'; 70_000]);
        all.insert(vec![0; 8]);
    }
}

/// What to ask of an image that is refused: the answer is the same at every argument.
pub fn of_refused(image: &[u8], number: u64) -> (Vec<Question>, Vec<u64>) {
    let length = image.len() as u64;
    let places = [0, 1, u64::MAX];
    let mut offsets = vec![0, 8, 256, length, u64::MAX - 7, u64::MAX];
    let mut payloads = vec![vec![], b"MESSAGE=".to_vec(), vec![b'A'; 9_000]];
    let mut names = vec![vec![], b"MESSAGE".to_vec(), b"=".to_vec()];
    if number >= 8 {
        let walked = Image::walked(image);
        let entries = walked.of_kind(kind::ENTRY);
        offsets.extend(entries.iter().take(4).map(|object| object.offset));
        for object in walked.of_kind(kind::DATA).iter().take(4) {
            let payload = walked.payload(object).to_vec();
            names.push(payload.split(|&byte| byte == b'=').next().unwrap().to_vec());
            payloads.push(payload);
        }
    }
    let mut all = Vec::new();
    all.extend(places.map(Question::Entry));
    all.extend(places.map(Question::FirstSeqnum));
    all.extend(places.map(Question::FirstRealtime));
    for place in places {
        all.extend(offsets.iter().map(|&at| Question::Item(at, place)));
        all.extend(
            payloads
                .iter()
                .map(|it| Question::Holding(it.clone(), place)),
        );
        all.extend(names.iter().map(|it| Question::Payload(it.clone(), place)));
    }
    (all, offsets)
}

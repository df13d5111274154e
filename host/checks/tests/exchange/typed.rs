//! The wrapper's answers in the words of its types, and its own buffers: they are never too short.
use super::asking::SOME;
use checks::generator::any::any;
use checks::generator::texts;
use checks::random::Random;
use reading::import::{self, Entry};
use reading::lookup::open;
use wrapper::{Exchanged, Fields, Offset, Refusal, LONGEST_TEXT};

fn number<T>(answer: Result<T, Refusal>) -> Result<T, u64> {
    answer.map_err(Refusal::number)
}

/// What was imported, in the reading's words.
fn read(entry: Exchanged) -> Entry {
    Entry {
        stamps: reading::exchange::Stamps {
            realtime: entry.realtime,
            monotonic: entry.monotonic,
            boot_id: entry.boot_id,
        },
        fields: entry.fields.packed().to_vec(),
    }
}

#[test]
fn the_same_in_types() {
    for seed in 0..2_000 {
        let text = texts::any(&mut Random::new(seed + 550_000));
        let expected = import::import(&text).map_err(|found| found[0].number);
        assert_eq!(number(wrapper::import(&text)).map(read), expected);
    }
    for seed in 0..300 {
        let image = any(&mut Random::new(seed + 560_000));
        let opened = open(&image);
        let mut offsets = vec![0, 256, u64::MAX];
        if let Ok(journal) = &opened {
            offsets.extend(journal.image.objects.iter().map(|object| object.offset));
        }
        for offset in offsets {
            let expected = match &opened {
                Ok(journal) => journal.exported(offset),
                Err(number) => Err(*number),
            };
            assert_eq!(number(wrapper::export(&image, Offset(offset))), expected);
        }
    }
}

/// The longest text: 64 payloads of 4,096 bytes, in the form with a length, and the longest stamps.
#[test]
fn the_longest() {
    let mut fields = Fields::new();
    for n in 0..64 {
        let payload = [b"A=", &vec![128 + n; 4_094][..]].concat();
        fields.add_payload(payload).expect("it is short");
    }
    let entry = Exchanged {
        realtime: u64::MAX,
        monotonic: u64::MAX,
        boot_id: SOME.boot_id,
        fields,
    };
    let text = wrapper::text(&entry).expect("16 lets it pass");
    assert_eq!(text.len(), LONGEST_TEXT);
    assert_eq!(wrapper::import(&text), Ok(entry.clone()));
    let mut buffer = vec![0; text.len() - 1];
    assert_eq!(number(wrapper::text_into(&entry, &mut buffer)), Err(28));
    assert!(buffer.iter().all(|&byte| byte == 0));

    // Fields of which the heads are most.
    let mut fields = Fields::new();
    for _ in 0..64 {
        fields.add_payload("A=").expect("it is short");
    }
    let entry = Exchanged { fields, ..entry };
    let text = wrapper::text(&entry).expect("16 lets it pass");
    assert_eq!(wrapper::import(&text), Ok(entry));
}

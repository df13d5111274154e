//! The wrapper's entries as text: typed, they are the archive's numbers and bytes.
use checks::corpus::{self, FILES};
use checks::generator::any::any;
use checks::generator::mutation::targeted;
use checks::random::Random;
use reading::refusal::CLAUSES;
use wrapper::{export, export_into, import, raw, text, text_into};
use wrapper::{Entry, Exchanged, Fields, Offset, Refusal, LONGEST_TEXT};

/// What a buffer holds before a call.
const BEFORE: u8 = 0xaa;

/// What the archive says to a buffer that is long enough.
fn archive(image: &[u8], at: u64) -> (u64, Vec<u8>) {
    let mut buffer = vec![BEFORE; LONGEST_TEXT];
    let answer = raw::export(image, at, &mut buffer);
    let (text, rest) = buffer.split_at(answer.len as usize);
    assert!(rest.iter().all(|&byte| byte == BEFORE));
    (answer.refusal, text.to_vec())
}

/// The text at an offset, and to buffers of just its length and of one byte less.
fn same_export(image: &[u8], at: u64) -> Option<Vec<u8>> {
    let (refusal, bytes) = archive(image, at);
    let typed = export(image, Offset(at));
    let expected = match refusal {
        0 => Ok((!bytes.is_empty()).then_some(bytes)),
        _ => Err(Refusal::new(refusal).expect("not 0")),
    };
    assert_eq!(typed, expected);
    let bytes = typed.ok().flatten()?;
    let mut buffer = vec![BEFORE; bytes.len()];
    let short = export_into(image, Offset(at), &mut buffer[1..]);
    assert_eq!(short.map_err(Refusal::number), Err(28));
    assert!(buffer.iter().all(|&byte| byte == BEFORE));
    let len = export_into(image, Offset(at), &mut buffer);
    assert_eq!((len, &buffer), (Ok(Some(bytes.len())), &bytes));
    Some(bytes)
}

/// The same entry without its file, and what is read back of its text.
fn same_text(image: &[u8], entry: &Entry) {
    let exchanged = Exchanged::from(entry);
    assert!(exchanged
        .fields
        .payloads()
        .eq(entry.payloads.iter().copied()));
    let typed = text(&exchanged);
    assert_eq!(typed.clone().map(Some), export(image, entry.offset));
    let Ok(bytes) = typed else { return };
    let mut buffer = vec![BEFORE; bytes.len()];
    let short = text_into(&exchanged, &mut buffer[1..]);
    assert_eq!(short.map_err(Refusal::number), Err(28));
    assert_eq!(text_into(&exchanged, &mut buffer), Ok(bytes.len()));
    assert_eq!(buffer, bytes);

    let back = import(&bytes).expect("what went out comes back");
    let reserved = |it: &[u8]| it.starts_with(b"__") || it.starts_with(b"_BOOT_ID=");
    let others = entry.payloads.iter().copied().filter(|it| !reserved(it));
    assert!(back.fields.payloads().eq(others));
    let mut fields = vec![0; back.fields.packed().len()];
    let is = raw::import(&bytes, &mut fields);
    assert_eq!(back.fields.packed(), fields);
    let boot_id = [is.boot_low, is.boot_high].map(u64::to_le_bytes).concat();
    assert_eq!(
        (back.realtime, back.monotonic, &back.boot_id[..]),
        (is.realtime, is.monotonic, &boot_id[..])
    );
    assert_eq!(
        (back.realtime, back.monotonic, back.boot_id),
        (entry.realtime, entry.monotonic, entry.boot_id)
    );
    for cut in [0, 1, bytes.len() / 2, bytes.len() - 1] {
        let refusal = import(&bytes[..cut]).expect_err("its end is missing");
        assert_eq!(
            refusal.number(),
            raw::import(&bytes[..cut], &mut []).refusal
        );
    }
}

/// Every entry, and offsets where there is none; the number of texts.
fn same(image: &[u8]) -> usize {
    for at in [0, 256, 257, u64::MAX] {
        assert_eq!(same_export(image, at), None);
    }
    let entries = wrapper::all_entries(image).unwrap_or_default();
    let texts = entries.iter().filter(|entry| {
        same_text(image, entry);
        same_export(image, entry.offset.0).is_some()
    });
    texts.count()
}

#[test]
fn answers() {
    let images = (0..200).map(|seed| any(&mut Random::new(seed + 81_000)));
    let texts: usize = images.map(|image| same(&image)).sum();
    assert!(texts > 100, "{texts}");
    for (name, number) in FILES {
        let image = corpus::image(name);
        assert_eq!(same(&image) > 0, number == 0, "{name}");
    }
    for &clause in CLAUSES {
        same(&targeted(clause, &mut Random::new(clause.number)));
    }
}

/// The longest text there is, and the longest fields.
#[test]
fn longest() {
    let mut fields = Fields::new();
    for n in 10..74 {
        let payload = [format!("A{n}=").as_bytes(), &[0; 4_092]].concat();
        fields.add_payload(payload).expect("it is short");
    }
    let entry = Exchanged {
        realtime: u64::MAX,
        monotonic: u64::MAX,
        boot_id: [0xff; 16],
        fields,
    };
    let bytes = text(&entry).expect("it is taken");
    assert_eq!(bytes.len(), LONGEST_TEXT);
    assert_eq!(import(&bytes), Ok(entry.clone()));
    let mut more = entry;
    more.fields.add("B", "1").expect("it is short");
    assert_eq!(text(&more).map_err(Refusal::number), Err(16));
}

/// Short fields, which take more bytes packed than in their text.
#[test]
fn shortest() {
    let stamps = "__REALTIME_TIMESTAMP=1\n__MONOTONIC_TIMESTAMP=1\n_BOOT_ID=";
    let stamps = format!("{stamps}{}\n", "0".repeat(32));
    let bytes = format!("{stamps}{}\n", "A=\n".repeat(64));
    let entry = import(bytes.as_bytes()).expect("it is taken");
    assert_eq!(entry.fields.packed().len(), 64 * 6);
    assert_eq!(text(&entry), Ok(bytes.into_bytes()));
    let many = format!("{stamps}{}\n", "A=\n".repeat(65));
    let refused = import(many.as_bytes()).map_err(Refusal::number);
    assert_eq!(refused, Err(16));
}

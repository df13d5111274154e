//! Numbers of fields, of empty lines, and of bytes that are lent for the fields.
use super::asking::{Tried, SOME};
use super::forms::{entry, with_stamps};
use checks::generator::texts::{closed, counted, line, STAMPS};
use reading::import;
use reading::refusal::clause::*;
use wrapper::raw;

/// 1 to 64 fields, repeats counted, whatever is passed over among them.
#[test]
fn fields() {
    let mut tried = Tried::default();
    for count in [0, 1, 2, 63, 64, 65, 66, 128, 200] {
        for over in [0, 1, 70] {
            for same in [false, true] {
                let one = |n: usize| match same {
                    true => b"1".to_vec(),
                    false => n.to_string().into_bytes(),
                };
                let mut fields = vec![counted(b"__X", b"1"); over];
                fields.extend((0..count).map(|n| match n % 2 {
                    0 => line(b"A", &one(n)),
                    _ => counted(b"A", &one(n)),
                }));
                let payloads = (0..count).map(|n| [b"A=", &one(n)[..]].concat());
                let payloads: Vec<Vec<u8>> = payloads.collect();
                let payloads: Vec<&[u8]> = payloads.iter().map(|it| &it[..]).collect();
                let expected = match count {
                    0 => Err(vec![NO_FIELDS]),
                    1..=64 => Ok(entry(&payloads)),
                    _ => Err(vec![ABOVE_64_FIELDS]),
                };
                assert_eq!(tried.import(&with_stamps(&fields)), expected);
            }
        }
    }
    tried.print("numbers of fields");
}

/// Nothing, and nothing but newlines.
#[test]
fn empty_lines() {
    let mut tried = Tried::default();
    assert_eq!(tried.import(b""), Err(vec![NO_EMPTY_LINE]));
    assert_eq!(tried.number(b"\n"), 24);
    for count in 2..20 {
        assert_eq!(tried.import(&vec![b'\n'; count]), Err(vec![BYTES_BEHIND]));
    }
    let text = with_stamps(&[line(b"A", b"1")]);
    assert_eq!(tried.import(&text), Ok(entry(&[b"A=1"])));
    // Before it, behind it, in its midst, and the entry twice.
    let stamps = with_stamps(&[]);
    for (other, clause) in [
        ([b"\n", &text[..]].concat(), BYTES_BEHIND),
        ([&text[..], b"\n"].concat(), BYTES_BEHIND),
        ([&stamps[..], b"A=1\n\n"].concat(), BYTES_BEHIND),
        ([&text[..], &text].concat(), BYTES_BEHIND),
        ([&text[..], b"A=1\n"].concat(), BYTES_BEHIND),
        ([&text[..], b"\0"].concat(), BYTES_BEHIND),
        (text[..text.len() - 1].to_vec(), NO_EMPTY_LINE),
        (text[..text.len() - 2].to_vec(), LINE_CUT_SHORT),
    ] {
        let found = tried.import(&other).expect_err("it is no entry");
        assert_eq!(found[0], clause);
    }
    // A carriage return makes no line empty.
    assert_eq!(
        tried.number(&[&text[..text.len() - 1], b"\r\n"].concat()),
        23
    );
    let text = String::from_utf8(text).expect("it is text");
    assert_eq!(tried.number(text.replace('\n', "\r\n").as_bytes()), 23);
}

/// Every length of the buffer up to some bytes more than the fields need; where it is refused for another
/// reason a short buffer is not told.
#[test]
fn buffers() {
    let text = with_stamps(&[
        line(b"A", b"1"),
        counted(b"LOT", b"\n12"),
        line(b"__X", b"3"),
        line(b"A", b"1"),
    ]);
    let read = import::import(&text);
    assert_eq!(read, Ok(entry(&[b"A=1", b"LOT=\n12", b"A=1"])));
    for length in 0..70 {
        let mut fields = vec![0xee; length];
        let is = raw::import(&text, &mut fields);
        if length < 7 + 11 + 7 {
            let refused = raw::Imported {
                refusal: 28,
                ..raw::Imported::default()
            };
            assert_eq!(is, refused);
            assert!(fields.iter().all(|&byte| byte == 0xee));
            continue;
        }
        let [low, high] = [0, 8].map(|at| reading::image::le64(&SOME.boot_id, at));
        let expected = raw::Imported {
            refusal: 0,
            realtime: SOME.realtime,
            monotonic: SOME.monotonic,
            boot_low: low,
            boot_high: high,
            len: 25,
        };
        assert_eq!(is, expected);
        assert_eq!(fields[..25], entry(&[b"A=1", b"LOT=\n12", b"A=1"]).fields);
        assert!(fields[25..].iter().all(|&byte| byte == 0xee));
    }
    let mut tried = Tried::default();
    for (text, number) in [
        (text[..text.len() - 1].to_vec(), 23),
        (closed(&[line(b"a", b"1")]), 24),
        (with_stamps(&[line(b"A", b"1"), line(b"a", b"1")]), 16),
    ] {
        assert_eq!(tried.number(&text), number);
        assert_eq!(raw::import(&text, &mut []).refusal, number);
    }
}

/// 23, then 24, then 16: each set of them at once, at either end of the text.
#[test]
fn order() {
    let mut tried = Tried::default();
    for set in 0..8 {
        let [late, missing, wrong] = [0, 1, 2].map(|bit| set >> bit & 1 == 1);
        for turned in [false, true] {
            let mut fields = vec![line(b"A", b"1")];
            let last = if missing { 2 } else { 3 };
            fields.extend(STAMPS[..last].iter().map(|it| line(it.0, it.1)));
            if wrong {
                fields.push(line(b"a", b"1"));
            }
            if late {
                fields.push(line(STAMPS[0].0, b"7"));
            }
            if turned {
                fields.reverse();
            }
            let number = match (late, missing, wrong) {
                (true, ..) => 23,
                (_, true, _) => 24,
                (.., true) => 16,
                _ => 0,
            };
            assert_eq!(tried.number(&closed(&fields)), number);
        }
    }
}

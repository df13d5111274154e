//! Entries as text, by the reading alone: the worked example of the rules, and texts by hand.
use checks::generator::worked::two_appends;
use reading::exchange::{exported, text, write, Stamps, Text};
use reading::import::{self, import, Entry, Imported};
use reading::refusal::clause::*;
use reading::request::packed;

/// The first of the two appends, at 584: with the boot id of 16 times 5.
const FIRST: &str = "__REALTIME_TIMESTAMP=1700000000000000\n__MONOTONIC_TIMESTAMP=50\n\
                     _BOOT_ID=05050505050505050505050505050505\nMESSAGE=lot 12 due\nPRIORITY=2\n\n";

fn stamps() -> Stamps {
    Stamps {
        realtime: 1_700_000_000_000_000,
        monotonic: 50,
        boot_id: [5; 16],
    }
}

#[test]
fn the_worked_example() {
    for keyed in [0, 1] {
        let image = two_appends(keyed);
        assert_eq!(exported(&image, 584), Ok(Some(FIRST.as_bytes().to_vec())));
        let second = FIRST.replace("00000\n", "00001\n").replace("=50", "=60");
        let second = second.replace("MESSAGE=lot 12 due\n", "");
        assert_eq!(exported(&image, 736), Ok(Some(second.into_bytes())));
        for other in [0, 256, 320, 680, 583, 585, 872, u64::MAX] {
            assert_eq!(exported(&image, other), Ok(None));
        }
        assert_eq!(exported(&image[..255], 584), Err(1));
        assert_eq!(exported(&image[..800], 584), Err(5));
    }
    let fields = packed(&[b"MESSAGE=lot 12 due", b"PRIORITY=2"]);
    assert_eq!(text(&stamps(), &fields), Ok(FIRST.as_bytes().to_vec()));
    let stamps = stamps();
    assert_eq!(import(FIRST.as_bytes()), Ok(Entry { stamps, fields }));
}

/// "text form where each byte of the value is 9 or 32 to 126, otherwise the form with a 64-bit length"
#[test]
fn both_forms() {
    let payloads: [&[u8]; 6] = [
        b"A=\t ~",
        b"B=\x7f",
        b"_BOOT_ID=1",
        b"C=1\n2",
        b"__D=1",
        b"E=",
    ];
    let expected = [
        &FIRST.as_bytes()[..105],
        b"A=\t ~\nB\n\x01\0\0\0\0\0\0\0\x7f\nC\n\x03\0\0\0\0\0\0\x001\n2\nE=\n\n",
    ];
    let expected = expected.concat();
    assert_eq!(text(&stamps(), &packed(&payloads)), Ok(expected.clone()));
    let others = [payloads[0], payloads[1], payloads[3], payloads[5]];
    let read = import(&expected).expect("it was written");
    assert_eq!(read.fields, packed(&others));
    assert_eq!(read.stamps, stamps());
}

#[test]
fn refusals_in_writing() {
    let found = |fields: &[u8]| text(&stamps(), fields).expect_err("16");
    assert_eq!(found(&[]), [NO_FIELDS]);
    assert_eq!(found(&[1, 0, 0]), [BADLY_PACKED]);
    assert_eq!(found(&packed(&[b"__A=", b"_BOOT_ID="])), [NO_FIELDS]);
    assert_eq!(found(&packed(&[b"a=1"])), [NAME_BYTES]);
    assert_eq!(found(&packed(&[b"A"])), [NO_SIGN_IN_FIELD]);
    assert_eq!(found(&packed(&[&b"A="[..]; 65])), [ABOVE_64_FIELDS]);
    for (length, refusal) in [(3, 0), (4, 0), (2, 28), (0, 28)] {
        let mut lent = vec![7; length];
        let len = if refusal == 0 { 3 } else { 0 };
        assert_eq!(write(Ok(b"abc"), &mut lent), Text { refusal, len });
        let front = if refusal == 0 { b"abc" } else { &[7; 3] };
        assert!(lent.iter().eq(front.iter().chain(&[7]).take(length)));
    }
    let refusal = 16;
    assert_eq!(write(Err(16), &mut []), Text { refusal, len: 0 });
}

/// "23 over the whole text, then 24, then 16 .., then 28"
#[test]
fn refusals_in_reading() {
    let found = |text: &str| import(text.as_bytes()).expect_err("it is refused");
    assert_eq!(found(""), [NO_EMPTY_LINE]);
    assert_eq!(found("\n"), [NO_REALTIME, NO_MONOTONIC, NO_BOOT_ID]);
    assert_eq!(found("\n\n"), [BYTES_BEHIND]);
    assert_eq!(found("A"), [LINE_CUT_SHORT]);
    assert_eq!(found("A=1\n"), [NO_EMPTY_LINE]);
    assert_eq!(found("A\n1234567"), [LENGTH_CUT_SHORT]);
    assert_eq!(found("A\n\u{1}\0\0\0\0\0\0\0"), [VALUE_CUT_SHORT]);
    assert_eq!(found("A\n\u{1}\0\0\0\0\0\0\0x"), [NO_NEWLINE_BEHIND]);
    assert_eq!(found("A\n\0\0\0\0\0\0\0\0x\n\n"), [NO_NEWLINE_BEHIND]);
    let changed = |from: &str, to: &str| {
        assert!(FIRST.contains(from));
        found(&FIRST.replace(from, to))
    };
    assert_eq!(changed("=50", "="), [TIME_DIGITS]);
    assert_eq!(changed("=50", "=18446744073709551616"), [TIME_ABOVE]);
    assert_eq!(changed("=50", "=000000000000000000050"), [TIME_DIGITS]);
    assert_eq!(changed("=05", "=0"), [BOOT_ID_DIGITS]);
    assert_eq!(changed("=05", "=0A"), [BOOT_ID_DIGITS]);
    let again = "MESSAGE=1\n__MONOTONIC_TIMESTAMP=50\nMESSAGE";
    assert_eq!(changed("MESSAGE", again), [STAMP_TWICE]);
    assert_eq!(changed("__MONOTONIC", "__MONO"), [NO_MONOTONIC]);
    assert_eq!(changed("_BOOT_ID=", "=_BOOT_ID="), [NO_BOOT_ID]);
    assert_eq!(changed("MESSAGE=", "="), [EMPTY_NAME]);
    assert_eq!(changed("MESSAGE=", "0="), [NAME_DIGIT]);
    let read = import(FIRST.as_bytes());
    let need = 4 + 18 + 4 + 10;
    for length in [0, need - 1, need, need + 1] {
        let mut lent = vec![7; length];
        let is = import::write(&read, &mut lent);
        if length < need {
            let refusal = 28;
            let nothing = Imported::default();
            assert_eq!(is, Imported { refusal, ..nothing });
            assert!(lent.iter().all(|&byte| byte == 7));
            continue;
        }
        let expected = Imported {
            refusal: 0,
            realtime: 1_700_000_000_000_000,
            monotonic: 50,
            boot_low: 0x0505_0505_0505_0505,
            boot_high: 0x0505_0505_0505_0505,
            len: need as u64,
        };
        assert_eq!(is, expected);
        assert_eq!(lent[..4], [18, 0, 0, 0]);
        assert!(lent[need..].iter().all(|&byte| byte == 7));
    }
}

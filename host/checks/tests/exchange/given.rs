//! Texts of entries that are given by their stamps and an append's fields, without a file.
use super::asking::{Tried, SOME};
use checks::against::exchange::Written;
use checks::generator::dice::{edge, pick};
use checks::generator::requests::mutate;
use checks::generator::{appends, texts};
use checks::random::Random;
use reading::exchange::Stamps;
use reading::request::packed;

fn text(realtime: &str, monotonic: &str, boot_id: &str, fields: &str) -> Written {
    let text = format!(
        "__REALTIME_TIMESTAMP={realtime}\n__MONOTONIC_TIMESTAMP={monotonic}\n_BOOT_ID={boot_id}\n{fields}\n"
    );
    Ok(Some(text.into_bytes()))
}

/// Every number of digits, at its least and its greatest, and at the edges of 64 bits.
#[test]
fn times() {
    let mut tried = Tried::default();
    let mut times = vec![0, 1 << 32, 1 << 63, (1 << 63) - 1, u64::MAX, u64::MAX - 5];
    for digits in 0..20 {
        let power = 10u64.pow(digits);
        times.extend([
            power - 1,
            power,
            power + 1,
            9 * (power / 2),
            7 * (power / 10),
        ]);
    }
    let fields = packed(&[b"A=1"]);
    for &realtime in &times {
        for monotonic in [u64::MAX, 0, realtime / 3, realtime] {
            let stamps = Stamps {
                realtime,
                monotonic,
                boot_id: [0; 16],
            };
            let zeros = "0".repeat(32);
            let [one, other] = [realtime, monotonic].map(|it| it.to_string());
            let expected = text(&one, &other, &zeros, "A=1\n");
            assert_eq!(tried.text(&stamps, &fields), expected);
        }
    }
    tried.print("times");
}

/// Each byte at each place, with its high half first.
#[test]
fn boot_ids() {
    let mut tried = Tried::default();
    let fields = packed(&[b"A="]);
    for place in 0..16 {
        for byte in 0..=255 {
            let mut boot_id = [0xa5; 16];
            boot_id[place] = byte;
            let digits = format!(
                "{}{byte:02x}{}",
                "a5".repeat(place),
                "a5".repeat(15 - place)
            );
            let stamps = Stamps { boot_id, ..SOME };
            let expected = text("1700000000000000", "50", &digits, "A=\n");
            assert_eq!(tried.text(&stamps, &fields), expected);
        }
    }
    tried.print("boot ids");
}

/// A buffer cut at every byte, and with bytes behind it: 16 but where a payload ends.
#[test]
fn badly_packed() {
    let mut tried = Tried::default();
    let whole = packed(&[b"A=1", b"__B=22", b"_BOOT_ID=3", b"C=\n", b"A=1"]);
    let ends = [7, 17, 31, 38, 45];
    assert_eq!(whole.len(), 45);
    for length in 0..=whole.len() {
        let written = tried.text(&SOME, &whole[..length]);
        assert_eq!(written.is_ok(), ends.contains(&length), "{length}");
    }
    for more in 1..9 {
        for byte in [0, 1, 255] {
            let longer = [&whole[..], &vec![byte; more]].concat();
            assert_eq!(tried.text(&SOME, &longer), Err(16));
        }
    }
    // Each length of 4 bytes, at every payload.
    let mut taken = 0;
    for start in [0, 7, 17, 31, 38] {
        let mut lengths = Vec::from_iter(0..60);
        lengths.extend((0..32).map(|bit| 1u32 << bit));
        lengths.extend((0..60).map(|far| u32::MAX - far));
        for length in lengths {
            let mut fields = whole.clone();
            fields[start..start + 4].copy_from_slice(&length.to_le_bytes());
            taken += u64::from(tried.text(&SOME, &fields).is_ok());
        }
    }
    assert!(taken >= 5);
    tried.print("badly packed fields");
}

/// A payload that comes twice is written twice, and counted so.
#[test]
fn repeats() {
    let mut tried = Tried::default();
    for count in [1, 2, 63, 64, 65, 66, 130] {
        let fields = packed(&vec![&b"A=1"[..]; count]);
        let expected = match count {
            1..=64 => {
                let id = "0123456789abcdef0011223344556677";
                text("1700000000000000", "50", id, &"A=1\n".repeat(count))
            }
            _ => Err(16),
        };
        assert_eq!(tried.text(&SOME, &fields), expected);
        let apart = packed(&[&b"__X=1"[..], b"_BOOT_ID="].repeat(70));
        let beside = [&apart[..], &fields, &apart].concat();
        assert_eq!(tried.text(&SOME, &beside), expected);
    }
}

/// Payloads that have no `=`. One that is nothing but a name that is set apart is not written.
#[test]
fn without_a_sign() {
    let mut tried = Tried::default();
    for payload in [&b""[..], b"A", b"_", b"_BOOT_I", b"_BOOT_IDS", b"a", b"\n"] {
        assert_eq!(tried.text(&SOME, &packed(&[payload])), Err(16));
        assert_eq!(tried.text(&SOME, &packed(&[b"A=1", payload])), Err(16));
        assert_eq!(tried.text(&SOME, &packed(&[payload, b"A=1"])), Err(16));
    }
    let good = tried.text(&SOME, &packed(&[b"A=1"]));
    assert!(good.is_ok());
    for payload in [&b"__"[..], b"__X", b"_BOOT_ID", b"___\n"] {
        assert_eq!(tried.text(&SOME, &packed(&[payload])), Err(16));
        assert_eq!(tried.text(&SOME, &packed(&[b"A=1", payload])), good);
        assert_eq!(tried.text(&SOME, &packed(&[payload, b"A=1"])), good);
    }
}

/// Fields of appends of every kind, good and bad, and of texts; some of them changed.
#[test]
fn of_any_kind() {
    let (mut tried, mut taken) = (Tried::default(), 0);
    for seed in 0..4_000 {
        let random = &mut Random::new(seed + 520_000);
        let mut asked = appends::any(random).asked;
        if seed % 3 == 0 {
            mutate(random, &mut asked);
        }
        let near = pick(random, &[0, 10, 1 << 40]);
        let mut stamps = Stamps {
            realtime: edge(random, near),
            monotonic: edge(random, near),
            boot_id: random.array(),
        };
        taken += u64::from(tried.text(&stamps, &asked.fields).is_ok());
        if let Ok(entry) = reading::import::import(&texts::any(random)) {
            stamps = entry.stamps;
            asked.fields = entry.fields;
        }
        for _ in 0..2 {
            taken += u64::from(tried.text(&stamps, &asked.fields).is_ok());
            mutate(random, &mut asked);
        }
    }
    tried.print("fields of any kind");
    assert!(taken > 3_000 && tried.written[16] > 1_500);
}

//! Texts that are read: each field in either form, with any name and value.
use super::asking::{Tried, SOME};
use checks::generator::texts::{closed, counted, line, STAMPS};
use reading::import::Entry;
use reading::request::packed;

/// A text of the stamps and these fields.
pub fn with_stamps(fields: &[Vec<u8>]) -> Vec<u8> {
    let stamps = STAMPS.map(|(name, value)| line(name, value));
    closed(&[&stamps[..], fields].concat())
}

/// What is read of it: these payloads.
pub fn entry(payloads: &[&[u8]]) -> Entry {
    Entry {
        stamps: SOME,
        fields: packed(payloads),
    }
}

/// Reads a text of the stamps and these fields.
fn read(tried: &mut Tried, fields: &[Vec<u8>], payloads: &[&[u8]]) {
    let read = tried.import(&with_stamps(fields));
    assert_eq!(read, Ok(entry(payloads)));
}

/// Each byte in a value, alone, amid others and at both ends: in a line any but 10, with a length any.
#[test]
fn every_byte() {
    let mut tried = Tried::default();
    for byte in 0..=255u8 {
        for value in [
            vec![byte],
            vec![byte; 9],
            vec![b'a', byte, b'z'],
            vec![byte, b'='],
            vec![b'=', byte],
        ] {
            let payload = [b"A=", &value[..]].concat();
            read(&mut tried, &[counted(b"A", &value)], &[&payload]);
            let behind = [counted(b"A", &value), line(b"B", b"1")];
            read(&mut tried, &behind, &[&payload, b"B=1"]);
            let over = [counted(b"__A", &value), line(b"B", b"1")];
            read(&mut tried, &over, &[b"B=1"]);
            if byte == b'\n' {
                continue;
            }
            read(&mut tried, &[line(b"A", &value)], &[&payload]);
            let over = [line(b"__A", &value), line(b"B", b"1")];
            read(&mut tried, &over, &[b"B=1"]);
        }
    }
    let all: Vec<u8> = (0..=255).collect();
    let payload = [b"ALL=", &all[..]].concat();
    read(&mut tried, &[counted(b"ALL", &all)], &[&payload]);
    // Without 10.
    let all: Vec<u8> = (0..=255).filter(|&byte| byte != b'\n').collect();
    let payload = [b"ALL=", &all[..]].concat();
    read(&mut tried, &[line(b"ALL", &all)], &[&payload]);
    tried.print("every byte in a value");
}

/// Each byte in a name: fields whose names 16 refuses are whole all the same, and may be passed over.
#[test]
fn names() {
    let mut tried = Tried::default();
    for byte in 0..=255u8 {
        let fine = byte == b'_' || byte.is_ascii_uppercase() || byte.is_ascii_digit();
        for (name, number) in [
            (
                vec![byte],
                if byte.is_ascii_digit() || !fine {
                    16
                } else {
                    0
                },
            ),
            (vec![b'A', byte], if fine { 0 } else { 16 }),
            (vec![b'_', byte, b'Z'], if fine { 0 } else { 16 }),
            (vec![b'_', b'_', byte], 0),
        ] {
            let over = name.starts_with(b"__");
            let payloads = match over {
                true => vec![b"B=1".to_vec()],
                false => vec![[&name[..], b"=x"].concat(), b"B=1".to_vec()],
            };
            let payloads: Vec<&[u8]> = payloads.iter().map(|it| &it[..]).collect();
            // A name has no `=` and no newline.
            for form in [counted, line] {
                if matches!(byte, b'\n' | b'=') {
                    continue;
                }
                let text = with_stamps(&[form(&name, b"x"), line(b"B", b"1")]);
                match number {
                    0 => assert_eq!(tried.import(&text), Ok(entry(&payloads))),
                    _ => assert_eq!(tried.number(&text), number, "{name:?}"),
                }
            }
        }
    }
    // The name ends at the first `=`.
    let fields = [line(b"A=", b"x"), line(b"B=C", b""), line(b"__=", b"=")];
    read(&mut tried, &fields, &[b"A==x", b"B=C="]);
    // An empty name has a sign before its value, and is no empty line.
    for nameless in [line(b"", b"x"), line(b"", b""), line(b"=", b"x")] {
        for fields in [
            vec![nameless.clone()],
            vec![nameless.clone(), line(b"A", b"1")],
            vec![line(b"A", b"1"), nameless.clone()],
        ] {
            assert_eq!(tried.number(&with_stamps(&fields)), 16);
        }
    }
    tried.print("every byte in a name");
}

/// Names next to those of the stamps are other fields, or are passed over.
#[test]
fn names_beside() {
    let mut tried = Tried::default();
    for (name, _) in STAMPS {
        for at in 0..=name.len() {
            let mut others = Vec::new();
            for byte in *b"_AZ0x" {
                let mut longer = name.to_vec();
                longer.insert(at, byte);
                others.push(longer);
                if at < name.len() && name[at] != byte {
                    let mut changed = name.to_vec();
                    changed[at] = byte;
                    others.push(changed);
                }
            }
            if at < name.len() {
                let mut shorter = name.to_vec();
                shorter.remove(at);
                others.push(shorter);
                others.push(name[..at].to_vec());
            }
            for other in others {
                // Beside all stamps it is one field more; in place of this one the stamp is missing.
                let lines = STAMPS.map(|(name, value)| line(name, value)).to_vec();
                let fields = [&lines[..], &[line(&other, b"1"), line(b"B", b"2")]].concat();
                assert!([0, 16].contains(&tried.number(&closed(&fields))));
                let one_less = STAMPS.iter().filter(|it| it.0 != name);
                let mut fields: Vec<_> = one_less.map(|it| line(it.0, it.1)).collect();
                fields.push(line(&other, b"1"));
                assert_eq!(tried.number(&closed(&fields)), 24, "{other:?}");
            }
        }
    }
    tried.print("names beside the stamps'");
    assert!(tried.read[0] > 500 && tried.read[16] > 20);
}

/// The order of fields stays, repeats too; what is passed over leaves nothing.
#[test]
fn in_order() {
    let mut tried = Tried::default();
    let fields = [
        line(b"B", b"2"),
        counted(b"A", b"1"),
        line(b"__CURSOR", b"s=1;i=2"),
        counted(b"__SEQNUM", b"\n\n"),
        line(b"A", b"1"),
        counted(b"B", b""),
        line(b"A", b""),
        counted(b"B", b"2"),
    ];
    let payloads: [&[u8]; 6] = [b"B=2", b"A=1", b"A=1", b"B=", b"A=", b"B=2"];
    read(&mut tried, &fields, &payloads);
    // Values that look like more fields, or like the end.
    let inner = with_stamps(&[line(b"A", b"1")]);
    let payload = [b"TEXT=", &inner[..]].concat();
    read(
        &mut tried,
        &[counted(b"TEXT", &inner), line(b"A", b"2")],
        &[&payload, b"A=2"],
    );
    let over = [counted(b"__TEXT", &inner), line(b"A", b"2")];
    read(&mut tried, &over, &[b"A=2"]);
}

/// An entry as `journalctl -o export` shows it.
#[test]
fn as_journalctl_writes_it() {
    let mut tried = Tried::default();
    let text = "__CURSOR=s=3b7e;i=2;b=0123;m=32;t=60a2;x=9f\n\
                __REALTIME_TIMESTAMP=1700000000000000\n__MONOTONIC_TIMESTAMP=50\n\
                __SEQNUM=2\n__SEQNUM_ID=3b7e0000000000000000000000000000\n\
                _BOOT_ID=0123456789abcdef0011223344556677\n\
                MESSAGE=Sämling 12\n_TRANSPORT=stdout\nPRIORITY=6\n\n";
    let payloads = ["MESSAGE=Sämling 12", "_TRANSPORT=stdout", "PRIORITY=6"];
    let payloads = payloads.map(str::as_bytes);
    assert_eq!(tried.import(text.as_bytes()), Ok(entry(&payloads)));
}

//! Payloads of every kind, and how each is written.
use checks::generator::texts::{counted, line};

/// What an entry has to be written as: its fields, or a refusal.
pub type Expected = Result<Vec<Vec<u8>>, u64>;

fn payload(name: &[u8], value: &[u8]) -> Vec<u8> {
    [name, b"=", value].concat()
}

/// Payloads, and the fields that they make.
pub struct Case(pub Vec<Vec<u8>>, pub Expected);

/// Payloads of one name with these values, which are text or not.
fn values(name: &[u8], values: &[(Vec<u8>, bool)]) -> Case {
    let field = |(value, text): &(Vec<u8>, bool)| match text {
        true => line(name, value),
        false => counted(name, value),
    };
    let payloads = values.iter().map(|(value, _)| payload(name, value));
    Case(payloads.collect(), Ok(values.iter().map(field).collect()))
}

/// Each byte alone, in text, at both ends, and all of them.
fn bytes() -> Vec<Case> {
    let text = |byte: u8| byte == 9 || (32..127).contains(&byte);
    let each = |value: fn(u8) -> Vec<u8>| {
        let all = Vec::from_iter(0..=255).into_iter();
        let all: Vec<_> = all.map(|byte| (value(byte), text(byte))).collect();
        let cases = all.chunks(64).map(|some| values(b"BYTE", some));
        cases.collect::<Vec<Case>>()
    };
    let mut cases = each(|byte| vec![byte]);
    cases.extend(each(|byte| vec![b'a', byte, b'z']));
    cases.extend(each(|byte| vec![byte, b'z', b'a']));
    cases.extend(each(|byte| vec![b'z', b'a', b'\t', byte]));
    cases.push(values(b"ALL", &[((0..=255).collect(), false)]));
    let some = [
        (&b""[..], true),
        (b"=", true),
        (b"a=b=", true),
        (b"\t \t~", true),
        (b"\n\nA=1\n\n", false),
        (b"\r\n", false),
        ("発芽 5 °C".as_bytes(), false),
        (b"\x7f", false),
        (b"\x1f", false),
        (b"\x80", false),
    ];
    cases.push(values(
        b"_",
        &some.map(|(value, text)| (value.to_vec(), text)),
    ));
    cases
}

/// Payloads that are written beside ones that are not; with none left it is 16.
fn set_apart() -> Vec<Case> {
    let apart: [&[u8]; 9] = [
        b"_BOOT_ID=00112233445566778899aabbccddeeff",
        b"_BOOT_ID=",
        b"_BOOT_ID=\n",
        b"__X=1",
        b"__=",
        b"__REALTIME_TIMESTAMP=7",
        b"__a b=1",
        b"___\xff=\n",
        b"__CURSOR==",
    ];
    // Nearly so.
    let not: [&[u8]; 8] = [
        b"_=",
        b"_X=__",
        b"_BOOT_I=D",
        b"_BOOT_IDS=1",
        b"BOOT_ID=1",
        b"X=_BOOT_ID",
        b"X__=1",
        b"_0=1",
    ];
    let apart: Vec<Vec<u8>> = apart.iter().map(|it| it.to_vec()).collect();
    let mut cases: Vec<Case> = Vec::new();
    for one in &apart {
        cases.push(Case(vec![one.clone()], Err(16)));
        let fields = Ok(vec![b"A=1\n".to_vec()]);
        cases.push(Case(vec![one.clone(), b"A=1".to_vec()], fields));
    }
    // What 16 would refuse about one that is set apart is no matter.
    let long = payload(b"__LONG", &[b'x'; 5_000]);
    let name = payload(&[b'_'; 70], b"1");
    let beside = vec![long, b"B=1".to_vec(), name];
    cases.push(Case(beside, Ok(vec![b"B=1\n".to_vec()])));
    let mut all: Vec<Vec<u8>> = not.iter().map(|it| it.to_vec()).collect();
    let lines = not.iter().map(|it| [it, &b"\n"[..]].concat()).collect();
    for (at, one) in apart.iter().enumerate() {
        all.insert(2 * at % (all.len() + 1), one.clone());
    }
    cases.push(Case(all, Ok(lines)));
    cases.push(Case(apart, Err(16)));
    cases
}

/// So many others, and some that are set apart among them.
fn numbers() -> Vec<Case> {
    let mut cases = Vec::new();
    for (others, apart) in [
        (63, 0),
        (64, 0),
        (65, 0),
        (64, 9),
        (63, 2),
        (65, 9),
        (200, 0),
    ] {
        let numbered = |n| payload(b"N", format!("{others} {n}").as_bytes());
        let mut payloads: Vec<Vec<u8>> = (0..others).map(numbered).collect();
        let fields = (0..others).map(|n| [&numbered(n)[..], b"\n"].concat());
        let fields = if others > 64 {
            Err(16)
        } else {
            Ok(fields.collect())
        };
        for n in 0..apart {
            let name = format!("__{n}");
            payloads.insert(7 * n, payload(name.as_bytes(), b"1"));
        }
        cases.push(Case(payloads, fields));
    }
    cases
}

/// Payloads and names at the bounds of 16, alone and before and behind a good one.
fn bounds() -> Vec<Case> {
    let mut ones: Vec<(Vec<u8>, Option<Vec<u8>>)> = Vec::new();
    for length in [4_095, 4_096, 4_097, 5_000] {
        let fine = length <= 4_096;
        let value = vec![b'x'; length - 2];
        ones.push((payload(b"A", &value), fine.then(|| line(b"A", &value))));
        let value = vec![b'\n'; length - 5];
        ones.push((
            payload(b"NAME", &value),
            fine.then(|| counted(b"NAME", &value)),
        ));
    }
    for length in [1, 2, 63, 64, 65, 66, 300] {
        let name = vec![b'N'; length];
        ones.push((
            payload(&name, b"1"),
            (length <= 64).then(|| line(&name, b"1")),
        ));
    }
    let fine: [&[u8]; 6] = [b"A0", b"_0", b"Z9_", b"A", b"Z", b"_A_"];
    let wrong: [&[u8]; 13] = [
        b"a", b"Az", b"0", b"9A", b"A B", b"A.B", b"A-", b"A@", b"[", b"A/", b"A:", b"A\xff",
        b"\x00",
    ];
    ones.extend(fine.map(|name| (payload(name, b"2"), Some(line(name, b"2")))));
    ones.extend(wrong.map(|name| (payload(name, b"2"), None)));
    let mut cases = Vec::new();
    for (one, field) in ones {
        let other = (b"OTHER=1".to_vec(), b"OTHER=1\n".to_vec());
        let alone = field.clone().map(|it| vec![it]);
        let before = field.clone().map(|it| vec![it, other.1.clone()]);
        let behind = field.map(|it| vec![other.1.clone(), it]);
        cases.push(Case(vec![one.clone()], alone.ok_or(16)));
        cases.push(Case(vec![one.clone(), other.0.clone()], before.ok_or(16)));
        cases.push(Case(vec![other.0.clone(), one], behind.ok_or(16)));
    }
    cases
}

/// All of them.
pub fn all() -> Vec<Case> {
    let cases = [bytes(), set_apart(), numbers(), bounds()];
    cases.into_iter().flatten().collect()
}

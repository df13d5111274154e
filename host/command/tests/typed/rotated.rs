//! A full file, and the next one that goes on where it ends.
use crate::person::{append, asked, bytes, folder, made, options, typed, BOOT, MACHINE};
use crate::two::of_two;

/// As README has it: what the refusal says is what has to be typed.
#[test]
fn goes_on() {
    let folder = folder("rotated");
    let full = made(&folder, "full.journal", "2048");
    let mut count = 0;
    let words = loop {
        let said = append(&full, count + 1, &["A=1"]);
        if said.status != Some(0) {
            break said.failed_with(&full);
        }
        count += 1;
    };
    let image = bytes(&full);
    let id = image[72..88].iter().map(|byte| format!("{byte:02x}"));
    let id: String = id.collect();
    let next = count + 1;
    let middle = format!(
        " bytes are left: go on in a new one, made with --seqnum-id {id}, from --seqnum {next} on \
         (refusal 18: "
    );
    assert!(words.starts_with("the file is full, "), "{words}");
    assert!(words.contains(&middle), "{words}");

    let path = folder.join("next.journal");
    let new = ["--size", "4K", "--machine", MACHINE, "--boot", BOOT];
    typed("new", &path, &[&new[..], &["--seqnum-id", &id]].concat()).done();
    assert!(bytes(&path)[72..88] == image[72..88]);
    append(&path, next, &["A=1"]).done();
    // The ones after it count on by themselves.
    let words = ["--machine", MACHINE, "A=2"];
    let text = typed("append", &path, &words).done();
    assert!(text.starts_with(&format!("appended entry {}, ", next + 1)));

    let listed = of_two("list", &[full, path], &[]).done();
    let seqnums = listed.lines().skip(1).map(|line| {
        let seqnum = line.split_whitespace().nth(1).expect("a column");
        seqnum.parse::<u64>().expect("a number")
    });
    assert!(seqnums.eq(1..=next + 1), "{listed}");
}

/// K and M are 1024 and 1024 times 1024.
#[test]
fn sizes() {
    let folder = folder("sizes");
    for (typed_size, size) in [
        ("4K", 4_096),
        ("64K", 65_536),
        ("1M", 1 << 20),
        ("8M", 8 << 20),
    ] {
        let path = made(&folder, &format!("{typed_size}.journal"), typed_size);
        assert_eq!(bytes(&path).len(), size);
    }
    let path = folder.join("9M.journal");
    let words = typed("new", &path, &["--size=9M"]).failed_with(&path);
    assert!(
        words.starts_with("--size 9437184: a file has at most 8M, "),
        "{words}"
    );
}

/// What the bytes that are left are: an entry that needs them all fits, and then none are left.
#[test]
fn bytes_that_are_left() {
    let path = made(&folder("left"), "one.journal", "4096");
    append(&path, 1, &["A=1"]).done();
    let left = |field: &str| {
        let words = append(&path, 9, &[field]).failed_with(&path);
        let words = words
            .strip_prefix("the file is full, ")
            .expect("it is full");
        let number = words.split_once(' ').expect("a number").0;
        number.parse::<usize>().expect("a number")
    };
    let left_now = left(&format!("A={}", "x".repeat(4_000)));
    // A DATA of 64 bytes before its payload, and an ENTRY with one item; there is a spare item.
    let payload = format!("A={}", "x".repeat(left_now - 80 - 64 - 2));
    let mut words = options(2);
    words.push(payload);
    typed("append", &path, &words).done();
    assert_eq!(left("A=1"), 0);
    assert_eq!(asked("list", &path).done().lines().count(), 3);
}

//! The one condition of 17 that applies, with the last entry's value and the argument it is about.
use crate::person::{options, typed, MACHINE};
use crate::why::{five, why};

#[test]
fn stamps() {
    let path = five("why-stamps");
    let sentence = |changes: &[(usize, &str)]| {
        let mut words = options(6);
        for &(place, value) in changes {
            words[2 * place + 1] = value.to_string();
        }
        words.push("A=1".to_string());
        why(&path, &words, 17)
    };
    assert_eq!(
        sentence(&[(0, "0")]),
        "--seqnum 0: sequence numbers begin with 1"
    );
    for seqnum in ["4", "5"] {
        let expected = format!(
            "--seqnum {seqnum}: the last entry has sequence number 5, and the new one needs a \
             higher one"
        );
        assert_eq!(sentence(&[(0, seqnum), (1, "7")]), expected);
    }
    let expected = "--monotonic 7: the last entry, of the same boot, has 55";
    assert_eq!(sentence(&[(2, "7")]), expected);
    // Of an earlier wall time nothing is said: clocks are set back.
    assert_eq!(sentence(&[(1, "7"), (2, "7")]), expected);

    // A number that is chosen here is not blamed on an option.
    let mut greatest = options(6);
    greatest[1] = u64::MAX.to_string();
    greatest.push("A=1".to_string());
    typed("append", &path, &greatest).done();
    let expected =
        "the last entry has the greatest sequence number that there is: append to a new \
                    file";
    let words = ["--machine", MACHINE, "A=1"].map(str::to_string);
    assert_eq!(why(&path, &words, 17), expected);
}

//! Two files whose clocks were set, as one stream: it goes by wall time only where sequence numbers and
//! boots do not decide, and each file stays in its own order.
use super::merged_paging;
use super::merging::Tried;
use checks::generator::set_clock::{fields, series, Kind, PLAIN};
use reading::lookup3::hashlittle2;
use reading::request::unpacked;
use wrapper::Which;

/// The first file's numbers are odd, the second's even: by them the two take turns.
const FIRST: Kind = PLAIN;
const SECOND: Kind = Kind {
    keyed: 1,
    first: 2,
    ..PLAIN
};

/// The files and wall times that the archive shows.
fn shown(first: &[u8], second: &[u8]) -> Vec<(Which, u64)> {
    let all = wrapper::all_merged(first, second).expect("both open");
    all.iter().map(|(file, it)| (*file, it.realtime)).collect()
}

/// Of two lists the one after the other, the next of the second where a test says so.
fn merged(
    first: &[u64],
    second: &[u64],
    second_is_next: impl Fn(usize, usize) -> bool,
) -> Vec<(Which, u64)> {
    let (mut a, mut b, mut all) = (0, 0, Vec::new());
    while a < first.len() || b < second.len() {
        if a == first.len() || b < second.len() && second_is_next(a, b) {
            all.push((Which::Second, second[b]));
            b += 1;
        } else {
            all.push((Which::First, first[a]));
            a += 1;
        }
    }
    all
}

/// xor_hash of the n-th entry, which decides between equal wall times.
fn xor_hash(n: usize) -> u64 {
    let fields = fields(n as u64);
    let payloads = unpacked(&fields).expect("well packed");
    payloads
        .into_iter()
        .map(hashlittle2)
        .fold(0, |xor, hash| xor ^ hash)
}

/// By sequence number under one seqnum id, by monotonic time in one boot; else by wall time, of which
/// each entry is only the lesser of two.
#[test]
fn what_decides() {
    let (mut against_the_clock, mut unsorted, mut by_time) = (0, 0, 0);
    for (what, one) in series() {
        for (_, other) in series() {
            let turns = merged(&one, &other, |a, b| b < a);
            let by_clock = merged(&one, &other, |a, b| {
                (other[b], xor_hash(b)) < (one[a], xor_hash(a))
            });
            let first = FIRST.file(&one);
            for (seqnum_id, boot, decided) in [
                (4, 5, &turns),
                (4, 6, &turns),
                (6, 5, &turns),
                (6, 6, &by_clock),
            ] {
                let second = Kind {
                    seqnum_id,
                    boot,
                    ..SECOND
                };
                let is = shown(&first, &second.file(&other));
                assert!(is == *decided, "{what}, {seqnum_id} and {boot}");
            }
            against_the_clock += (turns != by_clock) as u64;
            unsorted += by_clock.windows(2).filter(|it| it[1].1 < it[0].1).count();
            let signed = merged(&one, &other, |a, b| {
                (other[b] as i64, xor_hash(b)) < (one[a] as i64, xor_hash(a))
            });
            by_time += (signed != by_clock) as u64;
        }
    }
    println!(
        "what decides: {against_the_clock} pairs where the clock says another thing, {unsorted} falls \
         inside of streams by wall time, {by_time} pairs that signed times would show otherwise"
    );
    assert!(against_the_clock > 50 && unsorted > 50 && by_time > 10);
}

/// Every step, payload and page against the reading, for each series with another one.
#[test]
fn steps_and_pages() {
    let mut series = series();
    series.retain(|(_, times)| times.len() < 20);
    let (mut steps, mut pages) = (Tried::default(), merged_paging::Tried::default());
    let kinds = [(4, 5), (4, 6), (6, 5), (6, 6), (6, 7)];
    for (n, (_, one)) in series.iter().enumerate() {
        let (_, other) = &series[(n + 3) % series.len()];
        let (seqnum_id, boot) = kinds[n % kinds.len()];
        let second = Kind {
            seqnum_id,
            boot,
            ..SECOND
        };
        let (first, second) = (FIRST.file(one), second.file(other));
        steps.pair(&first, &second);
        pages.pair(&second, &first);
        // The same entries in both files meet, whatever their wall times do.
        let met = steps.met;
        steps.pair(&first, &Kind { keyed: 1, ..FIRST }.file(one));
        assert_eq!(steps.met - met, one.len() as u64);
    }
    steps.print("two files whose clocks were set");
    pages.print("two files whose clocks were set");
    assert_eq!(steps.refused, 0);
    assert!(steps.by[..3].iter().all(|&n| n > 20), "{:?}", steps.by);
    assert!(steps.over_2_63[2] > 0, "{:?}", steps.over_2_63);
    assert!(pages.none > 100 && pages.some > 100 && pages.all > 100);
}

//! The reading's stream of two files, each sentence of the request by an example.
use checks::generator::worked::{appended, made};
use reading::layout::header;
use reading::merged_answers::{Merged, Opened};
use reading::request::{packed, Request};

/// An entry: sequence number, boot, monotonic time, wall time, and a payload of its own.
type Row = (u64, u8, u64, u64, &'static str);

/// A file of a seqnum id with these entries.
fn file(seqnum_id: u8, rows: &[Row]) -> Vec<u8> {
    let mut image = made(4_096, u64::from(seqnum_id) % 2);
    image[header::SEQNUM_ID as usize..][..16].fill(seqnum_id);
    for &(seqnum, boot, monotonic, realtime, payload) in rows {
        let request = Request {
            machine_id: [2; 16],
            boot_id: [boot; 16],
            seqnum,
            realtime,
            monotonic,
            fields: &packed(&[b"A=1", payload.as_bytes()]),
        };
        appended(&mut image, &request);
    }
    image
}

/// What is shown from two places on: the file and the place there.
fn shown(first: &[u8], second: &[u8], at: [u64; 2]) -> Vec<(u64, u64)> {
    let opened = Opened::new(first, second);
    let stream = opened.0.as_ref().unwrap_or_else(|_| panic!("both open"));
    let place = |file: u64, entry: u64| {
        let mut entries = stream.file(file).committed.iter();
        entries
            .position(|&other| other == entry)
            .expect("committed") as u64
    };
    let all = stream.all(at[0], at[1]).into_iter();
    all.map(|it| (it.file, place(it.file, it.entry))).collect()
}

/// Which of two single entries is shown first; 0 if they meet.
fn before(first: (u8, Row), second: (u8, Row)) -> u64 {
    let [one, other] = [first, second].map(|(id, row)| file(id, &[row]));
    match shown(&one, &other, [0, 0])[..] {
        [(1, 0)] => 0,
        [(1, 0), (2, 0)] => 1,
        [(2, 0), (1, 0)] => 2,
        _ => panic!("each once"),
    }
}

const HALF: u64 = 1 << 63;

/// The earlier number decides, whatever those after it say; all are unsigned.
#[test]
fn which_goes_first() {
    let wet = "STATE=wet";
    // Same seqnum id: by sequence number, also of one boot and against both times.
    assert_eq!(before((4, (1, 5, 9, 9, wet)), (4, (2, 5, 1, 1, wet))), 1);
    assert_eq!(before((4, (2, 5, 1, 1, wet)), (4, (1, 6, 9, 9, wet))), 2);
    assert_eq!(
        before((4, (HALF, 5, 1, 1, wet)), (4, (HALF - 1, 5, 9, 9, wet))),
        2
    );
    // "or if equal, same boot by monotonic time", against the wall time.
    assert_eq!(before((4, (1, 5, 2, 9, wet)), (4, (1, 5, 3, 1, wet))), 1);
    assert_eq!(before((4, (1, 5, HALF, 1, wet)), (4, (1, 5, 3, 9, wet))), 2);
    // "otherwise": another seqnum id, against the sequence number.
    assert_eq!(before((4, (1, 5, 3, 1, wet)), (6, (2, 5, 2, 9, wet))), 2);
    assert_eq!(before((4, (2, 5, 2, 9, wet)), (6, (1, 5, HALF, 1, wet))), 1);
    // "otherwise, or if equal, by realtime": another boot, or the same monotonic time.
    assert_eq!(before((4, (2, 5, 3, 7, wet)), (6, (1, 6, 2, 8, wet))), 1);
    assert_eq!(before((4, (1, 5, 2, HALF, wet)), (6, (2, 6, 3, 8, wet))), 2);
    assert_eq!(before((4, (1, 5, 2, 9, wet)), (4, (1, 5, 2, 8, wet))), 2);
    assert_eq!(before((4, (1, 5, 2, 8, wet)), (4, (1, 6, 1, 9, wet))), 1);
    assert_eq!(before((4, (9, 5, 2, 8, wet)), (6, (1, 5, 2, 9, wet))), 1);
    // "then the first file": all is equal but the seqnum id, the sequence number under another id, or
    // the boot and its monotonic time.
    let row = (1, 5, 2, 8, wet);
    assert_eq!(before((4, row), (6, row)), 1);
    assert_eq!(before((4, (3, 5, 2, 8, wet)), (6, row)), 1);
    assert_eq!(before((4, (1, 6, 9, 8, wet)), (4, row)), 1);
    // "Entries equal in seqnum id, sequence number, boot, both times and xor_hash"
    assert_eq!(before((4, row), (4, row)), 0);
}

/// "then by xor_hash": unsigned, in either order of the files.
#[test]
fn by_xor_hash() {
    let payloads = ["L=0", "L=1", "L=2", "L=3", "L=4", "L=5"];
    let hash = |payload: &str| {
        let [one, other] = [b"A=1", payload.as_bytes()].map(reading::lookup3::hashlittle2);
        one ^ other
    };
    let mut over = 0;
    for one in payloads {
        for other in payloads {
            let expected = match hash(one).cmp(&hash(other)) {
                std::cmp::Ordering::Less => 1,
                std::cmp::Ordering::Equal => 0,
                std::cmp::Ordering::Greater => 2,
            };
            assert_eq!(
                before((4, (1, 5, 2, 8, one)), (4, (1, 5, 2, 8, other))),
                expected
            );
            over += ((hash(one) ^ hash(other)) >= HALF) as u64;
        }
    }
    assert!(over > 0);
}

/// Equal entries meet from 0 and 0; where one was passed, the other is shown like any.
#[test]
fn met_and_passed() {
    let rows: [Row; 3] = [
        (1, 5, 1, 1, "B=1"),
        (3, 5, 2, 2, "B=2"),
        (5, 6, 1, 3, "B=3"),
    ];
    let own = (2, 5, 1, 1, "B=4");
    let (first, second) = (file(4, &rows), file(4, &[rows[0], own, rows[2]]));
    let all = [(1, 0), (2, 1), (1, 1), (1, 2)];
    assert_eq!(shown(&first, &second, [0, 0]), all);
    assert_eq!(
        shown(&first, &second, [1, 0]),
        [(2, 0), (2, 1), (1, 1), (1, 2)]
    );
    assert_eq!(shown(&first, &second, [0, 1]), all);
    assert_eq!(shown(&first, &second, [3, 2]), [(2, 2)]);
    assert_eq!(shown(&first, &second, [2, 3]), [(1, 2)]);
    assert_eq!(shown(&first, &first, [0, 0]), [(1, 0), (1, 1), (1, 2)]);
    // From the first file, whichever that is.
    assert_eq!(
        shown(&second, &first, [0, 0]),
        [(1, 0), (1, 1), (2, 1), (1, 2)]
    );
}

/// With two seqnum ids what is shown need not be in the order of any number: each is only the lesser
/// of the two next ones.
#[test]
fn no_sorted_stream() {
    let first = file(4, &[(1, 5, 9, 1, "B=1"), (2, 6, 1, 2, "B=2")]);
    let second = file(6, &[(5, 5, 8, 7, "B=3"), (6, 6, 0, 8, "B=4")]);
    // By monotonic time, then by wall time against it, then by monotonic time.
    assert_eq!(
        shown(&first, &second, [0, 0]),
        [(2, 0), (1, 0), (2, 1), (1, 1)]
    );
}

#[test]
fn the_numbers_of_a_step() {
    let first = file(4, &[(1, 5, 1, 1, "B=1")]);
    let second = file(4, &[(1, 5, 1, 1, "B=1"), (2, 5, 1, 1, "B=2")]);
    let opened = Opened::new(&first, &second);
    let step = |at_first, at_second| {
        let it = opened.merged(at_first, at_second);
        [it.refusal, it.file, it.entry, it.next_first, it.next_second]
    };
    let entry = |image: &[u8], place| reading::lookup::open(image).expect("it opens").entry(place);
    let entry = |image: &[u8], place| entry(image, place).expect("an entry");
    let (one, two, three) = (entry(&first, 0), entry(&second, 0), entry(&second, 1));
    assert_eq!(step(0, 0), [0, 1, one, 1, 1]);
    assert_eq!(step(0, 1), [0, 1, one, 1, 1]);
    assert_eq!(step(1, 0), [0, 2, two, 1, 1]);
    assert_eq!(step(1, 1), [0, 2, three, 1, 2]);
    // A place past the end comes back as it is.
    assert_eq!(step(u64::MAX, 1), [0, 2, three, u64::MAX, 2]);
    assert_eq!(step(0, 1 << 63), [0, 1, one, 1, 1 << 63]);
    for (at_first, at_second) in [(1, 2), (2, 2), (u64::MAX, u64::MAX)] {
        assert_eq!(opened.merged(at_first, at_second), Merged::default());
    }
}

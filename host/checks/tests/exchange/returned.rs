//! There and back: "For entries whose other fields pass 16, those payloads, both times and the boot id
//! return as they went out." And a text whose entry is appended comes out again.
use super::asking::Tried;
use checks::corpus::{self, FILES};
use checks::generator::any::larger;
use checks::generator::good::tidy;
use checks::generator::grown::grown;
use checks::generator::texts::good;
use checks::generator::written::{made, MACHINE, WRITTEN};
use checks::random::Random;
use reading::request::{distinct, unpacked};
use wrapper::{export, import, plan, text, Exchanged, Offset, Planned, Request};

/// Whether a payload goes out with its entry, told in other words.
fn goes_out(payload: &[u8]) -> bool {
    !payload.starts_with(b"__") && !payload.starts_with(b"_BOOT_ID=")
}

/// Each committed entry, by the archive alone; how many went out.
fn there_and_back(image: &[u8]) -> u64 {
    let mut count = 0;
    for entry in wrapper::all_entries(image).expect("it opens") {
        let others: Vec<&[u8]> = entry
            .payloads
            .iter()
            .copied()
            .filter(|it| goes_out(it))
            .collect();
        let text = match export(image, entry.offset) {
            Ok(text) => text.expect("it is committed"),
            Err(refusal) => {
                assert_eq!(refusal.number(), 16);
                continue;
            }
        };
        let back = import(&text).expect("it was exported");
        assert_eq!(back.realtime, entry.realtime);
        assert_eq!(back.monotonic, entry.monotonic);
        assert_eq!(back.boot_id, entry.boot_id);
        assert!(back.fields.payloads().eq(others));
        // The same without its file, with all its payloads and with those alone.
        assert!(wrapper::text(&Exchanged::from(&entry)).as_ref() == Ok(&text));
        assert!(wrapper::text(&back).as_ref() == Ok(&text));
        count += 1;
    }
    count
}

#[test]
fn of_files() {
    let mut count = 0;
    for seed in 0..300 {
        let random = &mut Random::new(seed + 530_000);
        count += there_and_back(&tidy(random).image);
        count += there_and_back(&grown(random, 12));
        count += there_and_back(&larger(random));
    }
    println!("{count} entries of files went out and came back");
    assert!(count > 1_500);
    let all = FILES.map(|(name, _)| there_and_back(&corpus::image(name)));
    println!("entries of files of journald that went out and came back: {all:?}");
    assert!(all.iter().all(|&count| count > 0));
}

/// Appends what is imported, under this number; its offset.
fn append(image: &mut [u8], entry: &Exchanged, seqnum: u64) -> Offset {
    let request = Request {
        machine: &MACHINE,
        boot: &entry.boot_id,
        seqnum,
        realtime: entry.realtime,
        monotonic: entry.monotonic,
        fields: entry.fields.packed(),
    };
    let mut list = vec![0; 16 * 40_000];
    let Planned::Stores { count } = plan(image, &request, &mut list) else {
        panic!("the append is taken");
    };
    assert_eq!(wrapper::carry_out(image, &list, count), Ok(()));
    let place = wrapper::by_seqnum(image, seqnum).expect("it opens");
    place.expect("it is committed")
}

/// A text whose entry is appended to a new file comes out as it is written: its payloads once each, in their
/// order. In a file that has some of them they are the same ones, in the order of their DATA.
#[test]
fn through_a_file() {
    let mut tried = Tried::default();
    let mut same = 0;
    for (seed, kind) in (0..400).zip(WRITTEN.into_iter().cycle()) {
        let random = &mut Random::new(seed + 540_000);
        let mut shared = made(kind, 2_000_000, 5);
        for seqnum in 1..6 {
            let Ok(read) = tried.import(&good(random)) else {
                continue;
            };
            let payloads = distinct(&unpacked(&read.fields).expect("it is packed"));
            let mut entry = Exchanged {
                realtime: read.stamps.realtime,
                monotonic: read.stamps.monotonic,
                boot_id: read.stamps.boot_id,
                fields: wrapper::Fields::new(),
            };
            for payload in &payloads {
                entry.fields.add_payload(payload).expect("it is short");
            }
            let canonical = text(&entry).expect("16 lets it pass");

            let mut alone = made(kind, 500_000, 2);
            let offset = append(&mut alone, &entry, seqnum);
            let out = export(&alone, offset)
                .expect("it opens")
                .expect("committed");
            assert!(out == canonical, "another text");

            let offset = append(&mut shared, &entry, seqnum);
            let out = export(&shared, offset)
                .expect("it opens")
                .expect("committed");
            let back = import(&out).expect("it was exported");
            let stamps = (back.realtime, back.monotonic, back.boot_id);
            assert_eq!(stamps, (entry.realtime, entry.monotonic, entry.boot_id));
            let [mut one, mut other] =
                [&back, &entry].map(|it| Vec::from_iter(it.fields.payloads()));
            same += u64::from(one == other);
            one.sort();
            other.sort();
            assert!(one == other, "other payloads");
            assert!(tried.entries(&shared).len() <= seqnum as usize);
        }
    }
    tried.print("through a file");
    assert!(tried.read[0] > 1_000 && same > 100);
}

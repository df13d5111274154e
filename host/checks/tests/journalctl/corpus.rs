//! Files of journald that take an append once they are offline, with room made for entries.
use checks::corpus;
use checks::generator::frame::set;
use checks::random::Random;
use reading::image::{id, le64};
use reading::layout::header;

use crate::check::{check, shown};
use crate::entries::logged;
use crate::written::{carry_out, planned_of, At};

const NAMES: [&str; 5] = [
    "bullseye-k0-c0-system",
    "bullseye-k1-c0-online",
    "bullseye-k1-c0-system-archived",
    // With a header of 272 bytes and compatible bit 1.
    "trixie-k1-c0-system",
    // The same, and compact.
    "trixie-k1-c1-system",
];
const ROOM: usize = 65_536;

#[test]
fn files_of_journald() {
    for name in NAMES {
        let mut image = corpus::image(name);
        let before = shown(&image);
        image.resize(image.len() + ROOM, 0);
        let arena_size = le64(&image, header::ARENA_SIZE);
        set(&mut image, header::ARENA_SIZE, arena_size + ROOM as u64);
        image[header::STATE as usize] = 0;
        check(&image, before.len());

        let (last, _) = before.last().expect("journald logged something");
        let last = wrapper::stamps(&image, *last)
            .expect("it opens")
            .expect("an entry");
        let boot = id(&image, header::BOOT_ID);
        let random = &mut Random::new(1);
        for n in 1..=60 {
            // The boot that the file knows, and then another.
            let at = At {
                boot: if n <= 30 { boot } else { [9; 16] },
                seqnum: last.seqnum + n,
                realtime: last.realtime + n,
                monotonic: last.monotonic + n,
            };
            let mut payloads = logged(random, n);
            payloads.push(b"PRIORITY=6".to_vec());
            let machine = id(&image, header::MACHINE_ID);
            let list = planned_of(machine, &image, at, &payloads);
            carry_out(&mut image, &list);
            if [1, 2, 30, 31, 60].contains(&n) {
                check(&image, before.len() + n as usize);
            }
        }
    }
}

//! Files of journald, with room made for an append.
use checks::corpus::{self, FILES};
use checks::generator::frame::set;
use checks::generator::worked::request;
use reading::image::{id, le64};
use reading::layout::header;
use reading::request::{packed, Request};

use crate::made::Tried;

#[test]
fn corpus() {
    let mut tried = Tried::default();
    for (name, opens) in FILES {
        let number = match name {
            "bullseye-k1-c0-online" | "bullseye-k1-c0-system-archived" => 13,
            "sealed-bullseye-c0-system" => 12,
            "bookworm-k1-c0-system" => 25,
            _ => opens,
        };
        let mut image = corpus::image(name);
        let arena_size = le64(&image, header::ARENA_SIZE);
        image.resize(image.len() + 4096, 0);
        set(&mut image, header::ARENA_SIZE, arena_size + 4096);
        let fields = packed(&[b"MESSAGE=one more", b"PRIORITY=6", b"NEW=1"]);
        let ask = |seqnum: u64| Request {
            machine_id: id(&image, header::MACHINE_ID),
            ..request(&fields, seqnum, u64::MAX, seqnum)
        };
        assert_eq!(tried.append(&image, ask(u64::MAX)), number, "{name}");
        // The same files set offline, and with other appends after the first.
        let mut offline = image.clone();
        offline[header::STATE as usize] = 0;
        let now = if number == 13 { 0 } else { number };
        assert_eq!(tried.append(&offline, ask(u64::MAX)), now, "{name}");
        if now == 0 {
            for seqnum in u64::MAX - 5..=u64::MAX {
                tried.carried(&mut offline, ask(seqnum));
            }
            assert_eq!(tried.append(&offline, ask(u64::MAX)), 17, "{name}");
        }
    }
    tried.print("corpus");
}

//! Real files.
use checks::corpus;
use checks::generator::worked::{appended, request};
use reading::image::{id, le64};
use reading::layout::header;
use reading::listing::listing;
use reading::lookup::open;
use reading::plan::append;
use reading::refusal::refusal;
use reading::request::{packed, Request};

#[test]
fn real_files() {
    for (name, opens, entries, appends) in [
        ("bullseye-k0-c0-system", 0, 3, 0),
        ("bullseye-k1-c0-online", 0, 37, 13),
        ("bullseye-k1-c0-system-archived", 0, 37, 13),
        ("sealed-bullseye-c0-system", 0, 3, 12),
        ("bookworm-k1-c0-system", 0, 3, 25),
        ("trixie-k1-c0-system", 0, 3, 0),
        ("trixie-k1-c1-system", 0, 3, 0),
    ] {
        let image = corpus::image(name);
        assert_eq!(refusal(&image), opens, "{name}");
        let text = if opens == 0 {
            corpus::listing(name)
        } else {
            format!("refused {opens}\n")
        };
        assert_eq!(listing(&image), text, "{name}");
        if opens == 0 {
            assert_eq!(
                open(&image).map(|journal| journal.n_entries()).unwrap_or(0),
                entries
            );
        }
        // The files are cut to the end of their objects, so there is made room for an append.
        let mut wider = image.clone();
        wider.resize(image.len() + 4096, 0);
        let arena_size = le64(&wider, header::ARENA_SIZE) + 4096;
        wider[header::ARENA_SIZE as usize..][..8].copy_from_slice(&arena_size.to_le_bytes());
        let fields = packed(&[b"MESSAGE=one more", b"NEW=1"]);
        let machine_id = id(&image, header::MACHINE_ID);
        let ask = Request {
            machine_id,
            ..request(&fields, u64::MAX, u64::MAX, 1)
        };
        let answer = append(&wider, &ask, &mut vec![0; 16 * 1000]);
        assert_eq!(answer.refusal, appends, "{name}");
        if appends == 0 {
            assert_eq!(append(&image, &ask, &mut []).refusal, 18, "{name}");
            appended(&mut wider, &ask);
            assert_eq!(
                open(&wider).map(|journal| journal.n_entries()).unwrap_or(0),
                entries + 1
            );
        }
    }
}

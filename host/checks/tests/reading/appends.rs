//! The worked examples of the rules: appends.
use crate::examples::objects;
use checks::generator::worked::{appended, first, made, request, second, LAST, LISTING};
use reading::image::{le64, Image};
use reading::layout::{header, kind};
use reading::listing::listing;
use reading::lookup::open;
use reading::plan::{append, plan, Answer};
use reading::refusal::refusal;
use reading::request::packed;

/// Where the objects end.
fn end(image: &[u8]) -> u128 {
    let objects = Image::walked(image).objects;
    objects.last().expect("the tables").next()
}

#[test]
fn two_appends() {
    for keyed in [0, 1] {
        let mut image = made(4096, keyed);
        let fields = first();
        let ask = request(&fields, LAST, 1700000000000000, 50);
        let stores = plan(&image, &ask).expect("taken");
        assert_eq!(stores.len(), 72);
        assert_eq!(
            (stores[70].offset, stores[70].value),
            (header::N_ENTRIES, 1)
        );
        assert_eq!(appended(&mut image, &ask), 72);
        assert_eq!(
            objects(&image)[2..],
            [(320, 1), (408, 2), (456, 1), (536, 2), (584, 3), (680, 6)]
                .map(|(at, kind)| (at, kind as u8))
        );
        assert_eq!(end(&image), 736);
        assert_eq!(refusal(&image), 0);

        let fields = second();
        let ask = request(&fields, LAST + 1, 1700000000000001, 60);
        for seqnum in [LAST, 0] {
            let ask = request(&fields, seqnum, 1700000000000001, 60);
            let refused = plan(&image, &ask).map_err(|found| found[0].number);
            assert_eq!(refused, Err(17));
        }
        assert_eq!(appended(&mut image, &ask), 33);
        assert_eq!(
            objects(&image)[8..],
            [(736, kind::ENTRY), (816, kind::ENTRY_ARRAY)]
        );
        assert_eq!(end(&image), 872);
        assert_eq!(listing(&image), LISTING);
        let journal = open(&image)
            .map_err(|number| number.to_string())
            .expect("opens");
        assert_eq!(journal.entries_holding(b"PRIORITY=2"), [584, 736]);
        assert_eq!(journal.entries_holding(b"MESSAGE=lot 12 due"), [584]);
        assert_eq!(journal.first_seqnum(LAST + 1), Some(736));
        assert_eq!(journal.first_seqnum(LAST + 2), None);
        assert_eq!(journal.first_realtime(0), Some(584));
        let part = journal.item(584, 0).expect("an item");
        assert_eq!(
            (part.place, part.of(&image)),
            (384, &b"MESSAGE=lot 12 due"[..])
        );
        assert_eq!(
            journal.payload(b"PRIORITY", 0).map(|part| part.place),
            Some(520)
        );
        assert_eq!(journal.payload(b"PRIORITY", 1), None);
    }
}

#[test]
fn arena_480_holds_it_and_472_is_18() {
    let fields = first();
    let ask = request(&fields, LAST, 1700000000000000, 50);
    assert_eq!(le64(&made(736, 0), header::ARENA_SIZE), 480);
    assert_eq!(appended(&mut made(736, 0), &ask), 72);
    assert_eq!(le64(&made(728, 0), header::ARENA_SIZE), 472);
    let answer = append(&made(728, 0), &ask, &mut []);
    assert_eq!(
        answer,
        Answer {
            refusal: 18,
            stores: 0
        }
    );
    // The arena's end, not the image's.
    let mut image = made(736, 0);
    image[header::ARENA_SIZE as usize..][..8].copy_from_slice(&472u64.to_le_bytes());
    assert_eq!(append(&image, &ask, &mut []).refusal, 18);
}

#[test]
fn a_list_too_short_is_19_with_the_need() {
    let fields = first();
    let ask = request(&fields, LAST, 1700000000000000, 50);
    let mut list = vec![0x77; 16 * 72 - 1];
    assert_eq!(
        append(&made(4096, 0), &ask, &mut list),
        Answer {
            refusal: 19,
            stores: 72
        }
    );
    assert!(list.iter().all(|&byte| byte == 0x77));
    assert_eq!(
        append(&made(4096, 0), &ask, &mut [0x77; 16 * 72]),
        Answer {
            refusal: 0,
            stores: 72
        }
    );
}

#[test]
fn sixty_five_fields_are_16() {
    let image = made(8192, 0);
    let fields = |n: usize| packed(&vec![&b"A=1"[..]; n]);
    let number = |fields: &[u8]| append(&image, &request(fields, 1, 1, 1), &mut [0; 4096]).refusal;
    assert_eq!(number(&fields(65)), 16);
    assert_eq!(number(&fields(64)), 0);
    assert_eq!(number(&fields(0)), 16);
    let long = |length: usize| packed(&[&[b"A=", &vec![b'x'; length - 2][..]].concat()]);
    assert_eq!((number(&long(4096)), number(&long(4097))), (19, 16));
    let named = |name: &str| packed(&[format!("{name}=").as_bytes()]);
    for (name, is) in [
        ("", 16),
        ("A", 0),
        ("_", 0),
        ("9A", 16),
        ("A9", 0),
        ("a", 16),
        ("A B", 16),
    ] {
        assert_eq!(number(&named(name)), is, "{name}");
    }
    assert_eq!(
        (
            number(&named(&"N".repeat(64))),
            number(&named(&"N".repeat(65)))
        ),
        (0, 16)
    );
    assert_eq!(number(&packed(&[b""])), 16);
    assert_eq!(number(&packed(&[b"A"])), 16);
    for bad in [
        &[1][..],
        &[0, 0, 0],
        &[4, 0, 0, 0, b'A', b'=', b'1'],
        &[3, 0, 0, 0, b'A', b'=', b'1', 0],
    ] {
        assert_eq!(number(bad), 16);
    }
}

//! Where new objects go: cells, FIELDs' lists, and the arena's end.
use checks::against::plan::Append;
use checks::generator::frame::set;
use checks::generator::worked::request;
use reading::image::Image;
use reading::layout::header;
use reading::request::packed;

use crate::made::{fields, made, made_with, Tried};

/// Payloads whose hashes fall in one cell, or names, or both; after nothing, and after old ones.
#[test]
fn several_in_one_cell() {
    let mut tried = Tried::default();
    for keyed in [false, true] {
        for cells in [1, 2, 7, 64] {
            let mut image = made(60_000, (cells, cells), keyed);
            for seqnum in 1..=6 {
                let hash = |bytes: &[u8]| Image::walked(&image).hash(bytes) % cells;
                let wanted = seqnum % 3 % cells;
                let mut payloads = Vec::new();
                let mut n = 1000 * seqnum;
                while payloads.len() < 9 {
                    n += 1;
                    // Names of their own in odd appends, one new name for all in even ones.
                    let name = match seqnum % 2 {
                        1 => format!("N{n}"),
                        _ => format!("M{seqnum}"),
                    };
                    let payload = format!("{name}={n}").into_bytes();
                    let in_one = hash(&payload) == wanted;
                    if in_one && (seqnum != 3 || hash(name.as_bytes()) == wanted) {
                        payloads.push(payload);
                    }
                }
                let fields = fields(&payloads);
                let ask = request(&fields, seqnum, 0, 0);
                assert_eq!(tried.append(&image, ask), 0);
                tried.carried(&mut image, ask);
            }
        }
    }
    tried.print("several in one cell");
}

/// New payloads of old names and of new ones, old payloads and repeats, in every order.
#[test]
fn every_order_of_six_fields() {
    let mut tried = Tried::default();
    for cells in [(1, 1), (4, 3)] {
        let mut image = made(8192, cells, cells == (1, 1));
        let old = packed(&[b"OLD=1", b"OLD=2", b"A="]);
        tried.carried(&mut image, request(&old, 1, 0, 0));
        let six: [&[u8]; 6] = [b"OLD=2", b"OLD=3", b"NEW=1", b"NEW=", b"A=", b"NEW=1"];
        let mut order: Vec<usize> = (0..6).collect();
        // Heap's rule: every order, each by one exchange from the one before.
        let mut turns = [0; 6];
        let mut n = 0;
        loop {
            let fields = packed(&order.iter().map(|&it| six[it]).collect::<Vec<_>>());
            assert_eq!(tried.append(&image, request(&fields, 2, 0, 0)), 0);
            while n < 6 && turns[n] >= n {
                turns[n] = 0;
                n += 1;
            }
            if n == 6 {
                break;
            }
            order.swap(if n % 2 == 0 { 0 } else { turns[n] }, n);
            turns[n] += 1;
            n = 0;
        }
    }
    tried.print("every order of six fields");
}

/// The arena's end at every word from the objects' end on, with bytes of the image after it or not.
#[test]
fn arenas_around_the_end() {
    let mut tried = Tried::default();
    for (cells, payloads) in [
        ((1, 1), vec![&b"A=1"[..]]),
        ((3, 2), vec![b"A=1", b"A=12345678", b"B="]),
        ((3, 2), vec![b"OLD=1"]),
        ((3, 2), vec![b"OLD=1", b"OLD=2", b"NEW=1"]),
    ] {
        let header_size = if cells == (1, 1) || payloads.len() > 2 {
            272
        } else {
            256
        };
        let mut image = made_with(header_size, 4096, cells, payloads.len() > 1);
        let old = packed(&[b"OLD=1", b"C=1"]);
        for seqnum in 1..=4 {
            tried.carried(&mut image, request(&old, seqnum, 0, 0));
        }
        let words = Image::walked(&image);
        let start = words.objects[words.objects.len() - 1].next() as u64;
        let fields = packed(&payloads);
        let ask = request(&fields, 5, 0, 0);
        let stores = Append::new(&image, ask).read.expect("taken");
        let end = stores.iter().map(|it| it.offset).max().expect("some") + 8;
        for arena_end in (start..end + 24).step_by(8) {
            let number = if arena_end < end { 18 } else { 0 };
            for trailing in [0, 5, 800] {
                let mut image = image.clone();
                image.resize(arena_end as usize + trailing, 0xaa);
                set(&mut image, header::ARENA_SIZE, arena_end - header_size);
                assert_eq!(tried.append(&image, ask), number);
            }
        }
    }
    tried.print("arenas around the end");
}

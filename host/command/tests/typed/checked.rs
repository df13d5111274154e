//! `check`: whether a file opens, whether it takes appends, how much room is left in it, and what its
//! header is.
use crate::person::{append, asked, bytes, file, folder, made, typed, MACHINE};
use checks::corpus;
use checks::generator::compact::set_layout;
use checks::generator::frame::set;
use checks::generator::good::good;
use checks::generator::worked::{appended, first, made as small, request, two_appends, LAST};
use checks::random::Random;
use reading::image::{le64, Image};
use reading::layout::{header, Layout};
use std::path::Path;

/// The first three lines.
fn lines(path: &Path) -> [String; 3] {
    let text = asked("check", path).done();
    let lines = Vec::from_iter(text.lines().take(3).map(str::to_string));
    lines.try_into().expect("three lines")
}

#[test]
fn word_for_word() {
    let folder = folder("check-words");
    let path = file(&folder, "two.journal", &two_appends(1));
    let expected = format!(
        "opens, 2 entries\n\
         takes appends with --machine {MACHINE}\n\
         room: 3224 of 3840 bytes left, for about 11 entries of 276 bytes, the present mean\n\
         header: 256 bytes; its boot id need not be that of the last entry\n"
    );
    assert_eq!(asked("check", &path).done(), expected);
    // A file of this machine, and without entries.
    let own = folder.join("own.journal");
    typed("new", &own, &["--size", "65536"]).done();
    let expected = "opens, 0 entries\n\
                    takes appends\n\
                    room: 64160 of 65280 bytes left\n\
                    header: 256 bytes; its boot id need not be that of the last entry\n";
    assert_eq!(asked("check", &own).done(), expected);
    typed("append", &own, &["A=1"]).done();
    assert_eq!(lines(&own)[1], "takes appends");
}

/// 12 to 14 and 25: `check` says what `append` does.
#[test]
fn files_that_take_none() {
    let folder = folder("check-none");
    let path = made(&folder, "one.journal", "4096");
    append(&path, 5, &["A=1"]).done();
    let mut untidy = bytes(&path);
    let objects = le64(&untidy, header::N_OBJECTS);
    set(&mut untidy, header::N_OBJECTS, objects + 1);
    for (name, image, number) in [
        ("sealed", corpus::image("sealed-bullseye-c0-system"), 12),
        ("short", corpus::image("bookworm-k1-c0-system"), 25),
        ("online", corpus::image("bullseye-k1-c0-online"), 13),
        ("untidy", untidy, 14),
    ] {
        let path = file(&folder, name, &image);
        let words = append(&path, 1_000_000, &["A=1"]).failed_with(&path);
        assert!(words.contains(&format!(" (refusal {number}: ")), "{words}");
        let [opens, appends, _] = lines(&path);
        assert!(opens.starts_with("opens, "), "{opens}");
        assert_eq!(appends, format!("takes no append: {words}"));
        assert!(bytes(&path) == image);
    }
}

/// Nothing comes after the greatest sequence number.
#[test]
fn the_greatest_number() {
    let path = made(&folder("check-greatest"), "one.journal", "4096");
    append(&path, 5, &["A=1"]).done();
    assert!(lines(&path)[1].starts_with("takes appends"));
    let words = [
        "--seqnum",
        "18446744073709551615",
        "--machine",
        MACHINE,
        "A=1",
    ];
    typed("append", &path, &words).done();
    let expected =
        "takes no append: its last entry has the greatest sequence number: make a new file";
    assert_eq!(lines(&path)[1], expected);
}

/// "Arena 480 holds it": not a byte is left.
#[test]
fn a_full_file() {
    let mut image = small(256 + 480, 1);
    appended(&mut image, &request(&first(), LAST, 1, 1));
    let path = file(&folder("check-full"), "full.journal", &image);
    let [_, appends, room] = lines(&path);
    assert!(
        appends.starts_with("takes no append: the file is full"),
        "{appends}"
    );
    assert!(appends.contains(" (refusal 18: "), "{appends}");
    let expected = "room: 0 of 480 bytes left, for no entry of 416 bytes, the present mean";
    assert_eq!(room, expected);
}

/// With as many bytes left as the least ENTRY has, an entry might fit.
#[test]
fn room_for_the_least_entry() {
    let folder = folder("check-least");
    // The tables, and the objects of the first append.
    for (layout, objects, least) in [
        (Layout::Regular, 64 + 416, 80),
        (Layout::Compact, 64 + 392, 72),
    ] {
        for (left, takes) in [(least, true), (least - 8, false)] {
            let mut image = small(256 + objects + left, 1);
            set_layout(&mut image, layout);
            appended(&mut image, &request(&first(), LAST, 1, 1));
            let path = file(&folder, "least.journal", &image);
            let [_, appends, room] = lines(&path);
            assert_eq!(appends.starts_with("takes appends"), takes, "{appends}");
            assert!(room.starts_with(&format!("room: {left} of ")), "{room}");
        }
    }
}

/// What is left, and what the entries take, by the independent reading.
#[test]
fn room() {
    let folder = folder("check-room");
    for seed in 0..40 {
        let image = good(&mut Random::new(seed + 900)).image;
        let walked = Image::walked(&image);
        let ends: Vec<u64> = walked
            .objects
            .iter()
            .map(|it| it.offset + it.size.next_multiple_of(8))
            .collect();
        let (tables, end) = (ends[1], *ends.last().expect("objects"));
        let arena = le64(&image, header::ARENA_SIZE);
        let left = le64(&image, header::HEADER_SIZE) + arena - end;
        let [opens, _, room] = lines(&file(&folder, "good.journal", &image));
        let start = format!("room: {left} of {arena} bytes left");
        let rest = room.strip_prefix(&start).expect("what is left");
        let count = opens.split(' ').nth(1).expect("a number");
        let count: u64 = count.parse().expect("a number");
        match count {
            0 => assert_eq!(rest, ""),
            _ => {
                let mean = (end - tables).div_ceil(count);
                let fit = match left / mean {
                    0 => "no entry".to_string(),
                    1 => "about 1 entry".to_string(),
                    more => format!("about {more} entries"),
                };
                let expected = format!(", for {fit} of {mean} bytes, the present mean");
                assert_eq!(rest, expected);
            }
        }
    }
}

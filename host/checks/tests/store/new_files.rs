//! `journal_new`.
use crate::lending::lent;
use checks::random::Random;
use reading::image::le64;
use reading::layout::{header, kind, MOST_BYTES};
use reading::new_file;
use wrapper::raw::{new, open};

/// What is asked of a new file: data cells, field cells, keyed, header size.
type Asked = (u64, u64, u64, u64);

/// The reading's new file.
fn expected(image: &[u8], ids: &[u8; 64], asked: Asked) -> (u64, Vec<u8>) {
    let id = |at: usize| ids[at..at + 16].try_into().expect("16 bytes");
    let mut image = image.to_vec();
    let answer = new_file::new_file(
        &mut image,
        &new_file::NewFile {
            data_cells: asked.0,
            field_cells: asked.1,
            keyed: asked.2,
            header_size: asked.3,
            file_id: id(0),
            machine_id: id(16),
            boot_id: id(32),
            seqnum_id: id(48),
        },
    );
    (answer, image)
}

/// Compares a new file over `image` with the reading's, byte by byte. At 20 no byte changes; a file
/// that is made opens.
fn made(image: &[u8], ids: &[u8; 64], asked: Asked, tried: u64) -> u64 {
    let (answer, is) = lent(image, tried, |image| {
        new(image, ids, asked.0, asked.1, asked.2, asked.3)
    });
    let (number, should) = expected(image, ids, asked);
    assert_eq!(answer, number, "{} bytes, {asked:?}", image.len());
    assert!(is == should, "{} bytes, {asked:?}", image.len());
    match answer {
        0 => assert_eq!(open(&is), 0, "{} bytes, {asked:?}", image.len()),
        _ => assert!(answer == 20 && is == image),
    }
    answer
}

/// Every word of a new file of 4,096 bytes and one cell each, but for the ids.
fn words(ids: &[u8; 64], header_size: u64, words: &[(u64, u64)]) {
    let image = Random::new(2).bytes(4096);
    let (answer, image) = lent(&image, 3, |image| new(image, ids, 1, 1, 0, header_size));
    assert_eq!(answer, 0);
    assert_eq!(image[24..88], *ids);
    for at in (0..24).chain(88..4096).step_by(8) {
        let value = words.iter().find(|word| word.0 == at).map_or(0, |it| it.1);
        assert_eq!(le64(&image, at), value, "the word at {at}");
    }
    // Bit 2 of the incompatible flags, which stand at 12; the compatible ones stay.
    let (answer, keyed) = lent(&image, 6, |image| new(image, ids, 1, 1, 1, header_size));
    assert_eq!((answer, le64(&keyed, 8)), (0, le64(&image, 8) | 4 << 32));
}

#[test]
fn worked_examples() {
    let ids: [u8; 64] = Random::new(1).array();
    let both = [
        (0, u64::from_le_bytes(*b"LPKSHHRH")),
        (header::DATA_HASH_TABLE_SIZE, 16),
        (header::FIELD_HASH_TABLE_SIZE, 16),
        (header::N_OBJECTS, 2),
    ];
    let of_256 = [
        (header::HEADER_SIZE, 256),
        (header::ARENA_SIZE, 3840),
        (header::DATA_HASH_TABLE_OFFSET, 272),
        (header::FIELD_HASH_TABLE_OFFSET, 304),
        (header::TAIL_OBJECT_OFFSET, 288),
        (256, kind::DATA_HASH_TABLE as u64),
        (264, 32),
        (288, kind::FIELD_HASH_TABLE as u64),
        (296, 32),
    ];
    words(&ids, 256, &[&both[..], &of_256].concat());
    // Compatible bit 1, and the words at 256 and 264 are 0.
    let of_272 = [
        (8, 2),
        (header::HEADER_SIZE, 272),
        (header::ARENA_SIZE, 3824),
        (header::DATA_HASH_TABLE_OFFSET, 288),
        (header::FIELD_HASH_TABLE_OFFSET, 320),
        (header::TAIL_OBJECT_OFFSET, 304),
        (272, kind::DATA_HASH_TABLE as u64),
        (280, 32),
        (304, kind::FIELD_HASH_TABLE as u64),
        (312, 32),
    ];
    words(&ids, 272, &[&both[..], &of_272].concat());
    // Length 320 fits, 312 is 20; with 16 bytes of header more it is 336 and 328.
    for (header_size, length, number) in [
        (256, 320, 0),
        (256, 312, 20),
        (272, 336, 0),
        (272, 328, 20),
        (264, 4096, 20),
    ] {
        let image = Random::new(4).bytes(length);
        assert_eq!(made(&image, &ids, (1, 1, 0, header_size), 5), number);
    }
}

/// A header is 256 or 272 bytes, and no other number is taken for one of these.
#[test]
fn header_sizes() {
    let random = &mut Random::new(30);
    let mut sizes: Vec<u64> = (0..600).collect();
    for size in [256, 264, 272] {
        sizes.extend([16, 32, 48, 63].map(|bit| (1 << bit) + size));
        sizes.push(u64::MAX - size);
        sizes.push(0u64.wrapping_sub(size));
    }
    sizes.extend([1 << 31, 1 << 32, 1 << 63, u64::MAX - 7, u64::MAX]);
    let mut tried = 0;
    for header_size in sizes {
        for length in [0, 264, 320, 328, 336, 344, 4096] {
            let image = random.bytes(length);
            let fits = match header_size {
                256 => length >= 320,
                272 => length >= 336,
                _ => false,
            };
            for keyed in [0, 1] {
                tried += 1;
                let ids: [u8; 64] = random.array();
                let answer = made(&image, &ids, (1, 1, keyed, header_size), tried);
                assert_eq!(answer == 0, fits, "{header_size}, {length}");
            }
        }
    }
}

/// Sizes of no header that is made.
const OTHERS: [u64; 8] = [0, 255, 257, 264, 271, 273, 1 << 32 | 272, u64::MAX];

/// Lengths around every bound, with cells, "keyed" and header sizes around theirs.
#[test]
fn new_files_around_every_bound() {
    let random = &mut Random::new(10);
    let cells = |n: u64| 16 + 16 * n;
    let mut lengths: Vec<u64> = vec![0, 1, 7, 8, 9, 16, 87, 88, 96, 255, 256, 264, 311, 312, 313];
    lengths.extend([271, 272, 273]);
    lengths.extend([
        319, 320, 321, 327, 328, 329, 335, 336, 337, 344, 4088, 4095, 4096, 4097, 65_536,
    ]);
    let most = MOST_BYTES;
    lengths.extend([most - 8, most - 1, most, most + 1, most + 8, most + 4096]);
    for asked in [(65_536, 1), (1, 1024), (65_536, 1024)] {
        for header_size in [256, 272] {
            let fits = header_size + cells(asked.0) + cells(asked.1);
            lengths.extend([fits - 8, fits - 1, fits, fits + 1, fits + 8]);
        }
    }
    let (mut tried, mut taken) = (0, 0);
    for length in lengths {
        let image = random.bytes(length as usize);
        let ids: [u8; 64] = random.array();
        // Long images with everything that decides, short ones with every combination.
        let many = length < 65_536;
        for data in [0, 1, 2, 65_536, 65_537, u64::MAX] {
            for field in [0, 1, 2, 1024, 1025, u64::MAX] {
                for keyed in [0, 1, 2, 4, u64::MAX] {
                    let usual = [data < 3, field < 3, keyed < 2];
                    let edge = usual.iter().filter(|&&is| !is).count();
                    if many || edge < 2 && data != 2 && field != 2 || edge == 2 && keyed == 0 {
                        for header_size in [256, 272] {
                            tried += 1;
                            let asked = (data, field, keyed, header_size);
                            taken += u64::from(made(&image, &ids, asked, tried) == 0);
                        }
                        tried += 1;
                        let asked = (data, field, keyed, OTHERS[tried as usize % OTHERS.len()]);
                        assert_eq!(made(&image, &ids, asked, tried), 20);
                    }
                }
            }
        }
    }
    println!("new files: {taken} of {tried} made");
    assert!(taken > 100);
}

/// Every length up to 4,096, with cells that fill it, or one cell less or more.
#[test]
fn new_files_of_every_length() {
    let random = &mut Random::new(20);
    let (mut tried, mut taken) = (0, 0);
    for length in 0..=4096 {
        let image = random.bytes(length as usize);
        let ids: [u8; 64] = random.array();
        // Room beside a header of 256; with one of 272 there is one cell less.
        let room = (length / 16u64).saturating_sub(18);
        for cells in [
            room.saturating_sub(2),
            room.saturating_sub(1),
            room,
            room + 1,
        ] {
            let data = random.below(cells as usize + 1) as u64;
            for (keyed, header_size) in [(0, 256), (1, 256), (0, 272), (1, 272)] {
                tried += 1;
                let asked = (data, cells - data, keyed, header_size);
                taken += u64::from(made(&image, &ids, asked, tried) == 0);
            }
        }
    }
    println!("new files of every length: {taken} of {tried} made");
    assert!(taken > 1_000);
}

//! The files and requests of the rules' worked examples.
use reading::carry::carry_out;
use reading::new_file::{new_file, NewFile};
use reading::plan::append;
use reading::request::{packed, Request};

/// The sequence number of the first append.
pub const LAST: u64 = 9223372036854775807;

pub fn one_cell_each(keyed: u64) -> NewFile {
    NewFile {
        data_cells: 1,
        field_cells: 1,
        keyed,
        header_size: 256,
        file_id: [1; 16],
        machine_id: [2; 16],
        boot_id: [3; 16],
        seqnum_id: [4; 16],
    }
}

/// "New file of 4,096 bytes, one cell each", and of other lengths.
pub fn made(length: usize, keyed: u64) -> Vec<u8> {
    made_with(256, length, keyed)
}

/// The same with a header of 256 or 272 bytes.
pub fn made_with(header_size: u64, length: usize, keyed: u64) -> Vec<u8> {
    let mut image = vec![0xff; length];
    let new = NewFile {
        header_size,
        ..one_cell_each(keyed)
    };
    assert_eq!(new_file(&mut image, &new), 0);
    image
}

pub fn request(fields: &[u8], seqnum: u64, realtime: u64, monotonic: u64) -> Request<'_> {
    Request {
        machine_id: [2; 16],
        boot_id: [5; 16],
        seqnum,
        realtime,
        monotonic,
        fields,
    }
}

/// Works an append out and carries all of it out; the number of stores.
pub fn appended(image: &mut [u8], request: &Request) -> u64 {
    let mut list = vec![0xee; 16 * 100];
    let answer = append(image, request, &mut list);
    assert_eq!(answer.refusal, 0);
    assert!(list[16 * answer.stores as usize..]
        .iter()
        .all(|&byte| byte == 0xee));
    assert_eq!(carry_out(image, &list, answer.stores), 0);
    answer.stores
}

/// "Then `MESSAGE=lot 12 due` and `PRIORITY=2`"
pub fn first() -> Vec<u8> {
    packed(&[b"MESSAGE=lot 12 due", b"PRIORITY=2"])
}

/// "Then `PRIORITY=2` alone"
pub fn second() -> Vec<u8> {
    packed(&[b"PRIORITY=2"])
}

/// A new file of 4,096 bytes with both appends.
pub fn two_appends(keyed: u64) -> Vec<u8> {
    two_appends_with(256, keyed)
}

/// The same with a header of 256 or 272 bytes.
pub fn two_appends_with(header_size: u64, keyed: u64) -> Vec<u8> {
    let mut image = made_with(header_size, 4096, keyed);
    appended(&mut image, &request(&first(), LAST, 1700000000000000, 50));
    let next = LAST + 1;
    appended(&mut image, &request(&second(), next, 1700000000000001, 60));
    image
}

/// What the listing program prints for them.
pub const LISTING: &str = "\
seqnum realtime monotonic fields
9223372036854775807 1700000000000000 50 2
9223372036854775808 1700000000000001 60 1
entries 2
";

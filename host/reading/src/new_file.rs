//! A new file.
use super::layout::{header, kind, KEYED_HASH, MOST_BYTES, SIGNATURE, TAIL_ENTRY_BOOT_ID};

/// What a new file is made of; its length is the lent buffer's.
#[derive(Clone, Copy, Debug, PartialEq, Eq)]
pub struct NewFile {
    pub data_cells: u64,
    pub field_cells: u64,
    /// 0 or 1; any other number is refused.
    pub keyed: u64,
    /// 256 or 272; any other number is refused.
    pub header_size: u64,
    pub file_id: [u8; 16],
    pub machine_id: [u8; 16],
    pub boot_id: [u8; 16],
    pub seqnum_id: [u8; 16],
}

/// "A new file: length a multiple of 8, at most 8,388,608; 1 to 65,536 data cells, 1 to 1,024
/// field cells; keyed or not; otherwise, or if the tables do not fit, 20." "Sizes 256 and 272 are
/// written, a new file of any other is 20". At 20 no byte is written.
pub fn new_file(image: &mut [u8], new: &NewFile) -> u64 {
    let length = image.len() as u64;
    if length % 8 != 0 || length > MOST_BYTES {
        return 20;
    }
    if new.data_cells < 1
        || new.data_cells > 65_536
        || new.field_cells < 1
        || new.field_cells > 1_024
    {
        return 20;
    }
    if new.keyed != 0 && new.keyed != 1 {
        return 20;
    }
    if new.header_size != 256 && new.header_size != 272 {
        return 20;
    }
    // "Data table first": after it the field table.
    let data_table = new.header_size;
    let data_size = 16 + 16 * new.data_cells;
    let field_table = data_table + data_size;
    let field_size = 16 + 16 * new.field_cells;
    if field_table + field_size > length {
        return 20;
    }
    // "every other byte is 0"
    image.fill(0);
    image[0..8].copy_from_slice(&SIGNATURE);
    // "a new 272 file sets bit 1"
    let compatible_flags = match new.header_size {
        272 => TAIL_ENTRY_BOOT_ID,
        _ => 0,
    };
    image[8..12].copy_from_slice(&compatible_flags.to_le_bytes());
    let incompatible_flags = if new.keyed == 1 { KEYED_HASH } else { 0 };
    image[12..16].copy_from_slice(&incompatible_flags.to_le_bytes());
    for (at, id) in [
        (header::FILE_ID, new.file_id),
        (header::MACHINE_ID, new.machine_id),
        (header::BOOT_ID, new.boot_id),
        (header::SEQNUM_ID, new.seqnum_id),
    ] {
        image[at as usize..at as usize + 16].copy_from_slice(&id);
    }
    for (at, value) in [
        (header::HEADER_SIZE, new.header_size),
        // "arena to the end"
        (header::ARENA_SIZE, length - new.header_size),
        (header::DATA_HASH_TABLE_OFFSET, data_table + 16),
        (header::DATA_HASH_TABLE_SIZE, data_size - 16),
        (header::FIELD_HASH_TABLE_OFFSET, field_table + 16),
        (header::FIELD_HASH_TABLE_SIZE, field_size - 16),
        (header::TAIL_OBJECT_OFFSET, field_table),
        (header::N_OBJECTS, 2),
        (data_table + 8, data_size),
        (field_table + 8, field_size),
    ] {
        image[at as usize..at as usize + 8].copy_from_slice(&u64::to_le_bytes(value));
    }
    image[data_table as usize] = kind::DATA_HASH_TABLE;
    image[field_table as usize] = kind::FIELD_HASH_TABLE;
    0
}

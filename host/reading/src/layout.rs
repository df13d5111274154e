//! Where the fields stand: the header's table and the list of objects.

/// "The file opens with the eight bytes `LPKSHHRH`."
pub const SIGNATURE: [u8; 8] = *b"LPKSHHRH";
/// "Header sizes 256, 264 and 272 are read"
pub const HEADER_SIZES: [u64; 3] = [256, 264, 272];
/// "more than 8,388,608 bytes"
pub const MOST_BYTES: u64 = 8_388_608;
/// "bit 2" of the incompatible ones, the keyed hash.
pub const KEYED_HASH: u32 = 1 << 2;
/// "incompatible bit 4", compact files.
pub const COMPACT: u32 = 1 << 4;
/// "bit 1" of the compatible ones: the boot id at 56 is the tail entry's.
pub const TAIL_ENTRY_BOOT_ID: u32 = 1 << 1;

/// Where the header's fields stand.
pub mod header {
    pub const COMPATIBLE_FLAGS: u64 = 8;
    pub const INCOMPATIBLE_FLAGS: u64 = 12;
    pub const STATE: u64 = 16;
    pub const FILE_ID: u64 = 24;
    pub const MACHINE_ID: u64 = 40;
    pub const BOOT_ID: u64 = 56;
    pub const SEQNUM_ID: u64 = 72;
    pub const HEADER_SIZE: u64 = 88;
    pub const ARENA_SIZE: u64 = 96;
    pub const DATA_HASH_TABLE_OFFSET: u64 = 104;
    pub const DATA_HASH_TABLE_SIZE: u64 = 112;
    pub const FIELD_HASH_TABLE_OFFSET: u64 = 120;
    pub const FIELD_HASH_TABLE_SIZE: u64 = 128;
    pub const TAIL_OBJECT_OFFSET: u64 = 136;
    pub const N_OBJECTS: u64 = 144;
    pub const N_ENTRIES: u64 = 152;
    pub const TAIL_ENTRY_SEQNUM: u64 = 160;
    pub const HEAD_ENTRY_SEQNUM: u64 = 168;
    pub const ENTRY_ARRAY_OFFSET: u64 = 176;
    pub const HEAD_ENTRY_REALTIME: u64 = 184;
    pub const TAIL_ENTRY_REALTIME: u64 = 192;
    pub const TAIL_ENTRY_MONOTONIC: u64 = 200;
    pub const N_DATA: u64 = 208;
    pub const N_FIELDS: u64 = 216;
    pub const N_TAGS: u64 = 224;
    pub const N_ENTRY_ARRAYS: u64 = 232;
    pub const DATA_HASH_CHAIN_DEPTH: u64 = 240;
    pub const FIELD_HASH_CHAIN_DEPTH: u64 = 248;
    /// 32 bits, in a header of 264 and 272.
    pub const TAIL_ENTRY_ARRAY_OFFSET: u64 = 256;
    /// 32 bits, in a header of 264 and 272.
    pub const TAIL_ENTRY_ARRAY_N_ENTRIES: u64 = 260;
    /// In a header of 272.
    pub const TAIL_ENTRY_OFFSET: u64 = 264;
}

/// The types of objects.
pub mod kind {
    pub const DATA: u8 = 1;
    pub const FIELD: u8 = 2;
    pub const ENTRY: u8 = 3;
    pub const DATA_HASH_TABLE: u8 = 4;
    pub const FIELD_HASH_TABLE: u8 = 5;
    pub const ENTRY_ARRAY: u8 = 6;
    pub const TAG: u8 = 7;
    /// "Types 8 and up are walked over."
    pub const FIRST_FOREIGN: u8 = 8;
}

/// "1 DATA: 16 hash, 24 next_hash, 32 next_field, 40 entry_offset, 48 entry_array,
/// 56 n_entries, 64 payload"; in a compact file "two 32-bit tail fields at 64", and the payload after
/// them.
pub mod data {
    pub const HASH: u64 = 16;
    pub const NEXT_HASH_OFFSET: u64 = 24;
    pub const NEXT_FIELD_OFFSET: u64 = 32;
    pub const ENTRY_OFFSET: u64 = 40;
    pub const ENTRY_ARRAY_OFFSET: u64 = 48;
    pub const N_ENTRIES: u64 = 56;
    /// 32 bits, in a compact file.
    pub const TAIL_ENTRY_ARRAY_OFFSET: u64 = 64;
    /// 32 bits, in a compact file.
    pub const TAIL_ENTRY_ARRAY_N_ENTRIES: u64 = 68;
}

/// "2 FIELD: 16 hash, 24 next_hash, 32 head_data, 40 name."
pub mod field {
    pub const HASH: u64 = 16;
    pub const NEXT_HASH_OFFSET: u64 = 24;
    pub const HEAD_DATA_OFFSET: u64 = 32;
    pub const NAME: u64 = 40;
}

/// "3 ENTRY: 16 seqnum, 24 realtime, 32 monotonic, 40 boot id, 56 xor_hash, 64 items of 16
/// (DATA offset, hash)." In a compact file items of 4, "a 32-bit offset with no hash".
pub mod entry {
    pub const SEQNUM: u64 = 16;
    pub const REALTIME: u64 = 24;
    pub const MONOTONIC: u64 = 32;
    pub const BOOT_ID: u64 = 40;
    pub const XOR_HASH: u64 = 56;
    pub const ITEMS: u64 = 64;
}

/// "4, 5 data and field hash table: 16 cells of 16 (head, tail)."
pub mod table {
    pub const CELLS: u64 = 16;
}

/// "6 ENTRY_ARRAY: 16 next, 24 items of 8." In a compact file items of 4, "32-bit offsets".
pub mod array {
    pub const NEXT_ENTRY_ARRAY_OFFSET: u64 = 16;
    pub const ITEMS: u64 = 24;
}

/// What differs between regular files and compact ones.
#[derive(Clone, Copy, Debug, PartialEq, Eq, PartialOrd, Ord)]
pub enum Layout {
    Regular,
    Compact,
}

impl Layout {
    pub const BOTH: [Layout; 2] = [Layout::Regular, Layout::Compact];

    /// "Newer machines set incompatible bit 4"
    pub fn of_flags(incompatible_flags: u32) -> Layout {
        match incompatible_flags & COMPACT {
            0 => Layout::Regular,
            _ => Layout::Compact,
        }
    }

    /// Where a DATA's payload starts.
    pub fn payload(self) -> u64 {
        match self {
            Layout::Regular => 64,
            Layout::Compact => 72,
        }
    }

    /// The bytes of an ENTRY's item.
    pub fn entry_item(self) -> u64 {
        match self {
            Layout::Regular => 16,
            Layout::Compact => 4,
        }
    }

    /// The bytes of an ENTRY_ARRAY's item, and of the DATA offset in an ENTRY's item.
    pub fn array_item(self) -> u64 {
        match self {
            Layout::Regular => 8,
            Layout::Compact => 4,
        }
    }

    pub fn data_size(self, payload: usize) -> u64 {
        self.payload() + payload as u64
    }

    pub fn entry_size(self, items: usize) -> u64 {
        entry::ITEMS + self.entry_item() * items as u64
    }

    pub fn array_size(self, items: u64) -> u64 {
        array::ITEMS + self.array_item() * items
    }
}

//! The separate conditions that the tables of refusals list, each with its number.

/// One condition of a table of refusals.
#[derive(Clone, Copy, Debug, PartialEq, Eq, PartialOrd, Ord, Hash)]
pub struct Clause {
    pub number: u64,
    pub name: &'static str,
}

macro_rules! clauses {
    ($all:ident: $($clause:ident = $number:literal, $name:literal;)*) => {
        $(pub const $clause: Clause = Clause { number: $number, name: $name };)*
        pub const $all: &[Clause] = &[$($clause),*];
    };
}

// Refusals of an image, by rising number.
clauses! { CLAUSES:
    SHORT = 1, "fewer than 256 bytes";
    LONG = 2, "more than 8,388,608 bytes";
    SIGNATURE_DIFFERS = 3, "signature differs";
    INCOMPATIBLE_BIT = 4, "an incompatible bit other than bits 2 and 4";
    HEADER_SIZE = 5, "header_size none of 256, 264 and 272";
    HEADER_ABOVE_LENGTH = 5, "the sum above the image length, and so the header alone";
    ARENA_NOT_EIGHTS = 5, "arena_size not a multiple of 8";
    SUM_ABOVE_LENGTH = 5, "the sum above the image length";
    SUM_ABOVE_64_BITS = 5, "the sum above the image length, and 2^64 or more";

    TAIL_ZERO = 6, "tail_object_offset 0";
    TAIL_IN_HEADER = 6, "tail_object_offset inside the header";
    TAIL_IN_OBJECT = 6, "tail_object_offset inside an object";
    TAIL_PAST_END = 6, "tail_object_offset at or past the arena's end";
    OBJECT_PASSES_END = 6, "an object passes the arena's end";
    OBJECT_HEADER_PASSES_END = 6, "an object's first 16 bytes pass the arena's end";
    TYPE_ZERO = 6, "type 0";
    FLAG_BIT_0 = 6, "flag bit 0 set";
    FLAG_BIT_1 = 6, "flag bit 1 set";
    FLAG_BIT_2 = 6, "flag bit 2 set";
    DATA_BELOW = 6, "DATA below 65, or 73 if compact";
    FIELD_BELOW = 6, "FIELD below 41";
    ENTRY_BELOW = 6, "ENTRY below 80, or 68 if compact";
    ENTRY_NOT_ITEMS = 6, "ENTRY not 64 + 16n, or 64 + 4n if compact";
    DATA_TABLE_BELOW = 6, "data table below 32";
    DATA_TABLE_NOT_CELLS = 6, "data table not 16 + 16n";
    FIELD_TABLE_BELOW = 6, "field table below 32";
    FIELD_TABLE_NOT_CELLS = 6, "field table not 16 + 16n";
    ARRAY_BELOW = 6, "array below 32, or 28 if compact";
    ARRAY_NOT_ITEMS = 6, "array not 24 + 8n, or 24 + 4n if compact";
    TAG_NOT_64 = 6, "TAG not 64";
    FOREIGN_BELOW = 6, "type 8 and up below 16";

    FEWER_THAN_TWO = 7, "fewer than two objects";
    FIRST_TWO = 7, "the first two objects are not one data and one field table";
    LATER_DATA_TABLE = 7, "a later data table stands";
    LATER_FIELD_TABLE = 7, "a later field table stands";
    DATA_TABLE_OFFSET = 7, "the header's data table offset";
    DATA_TABLE_SIZE = 7, "the header's data table size";
    FIELD_TABLE_OFFSET = 7, "the header's field table offset";
    FIELD_TABLE_SIZE = 7, "the header's field table size";

    HEADER_ARRAY = 8, "entry_array_offset no ENTRY_ARRAY";
    ARRAY_NEXT_KIND = 8, "array next no ENTRY_ARRAY";
    ARRAY_NEXT_ORDER = 8, "array next not strictly later";
    DATA_CELL_HEAD = 8, "data cell head no DATA";
    FIELD_CELL_HEAD = 8, "field cell head no FIELD";
    DATA_NEXT_HASH_KIND = 8, "DATA next_hash no DATA";
    DATA_NEXT_HASH_ORDER = 8, "DATA next_hash not strictly later";
    FIELD_NEXT_HASH_KIND = 8, "FIELD next_hash no FIELD";
    FIELD_NEXT_HASH_ORDER = 8, "FIELD next_hash not strictly later";
    HEAD_DATA_KIND = 8, "head_data no DATA";
    NEXT_FIELD_KIND = 8, "next_field no DATA";
    NEXT_FIELD_ORDER = 8, "next_field not strictly earlier";
    ENTRY_OFFSET_KIND = 8, "entry_offset no ENTRY";
    ENTRY_ARRAY_KIND = 8, "entry_array no ENTRY_ARRAY";
    ITEM_ZERO = 8, "an ENTRY item of 0";
    ITEM_KIND = 8, "an ENTRY item that is not DATA";
    ITEMS_EQUAL = 8, "ENTRY items equal";
    ITEMS_FALLING = 8, "ENTRY items falling";

    COUNT_ABOVE_CHAIN = 9, "n_entries above the chain's items";
    COMMITTED_ZERO = 9, "a committed item of 0";
    COMMITTED_KIND = 9, "a committed item that is no ENTRY";
    OFFSETS_EQUAL = 9, "offsets equal";
    OFFSETS_FALLING = 9, "offsets falling";
    SEQNUMS_EQUAL = 9, "seqnums equal";
    SEQNUMS_FALLING = 9, "seqnums falling";
    SEQNUM_ZERO = 9, "seqnum 0";
    MONOTONIC_FALLING = 9, "monotonic falling between neighbours of equal boot id";

    CHAIN_SHORT = 10, "a DATA's chain too short for its count";
    COUNT_ZERO_HELD = 10, "count 0, though a committed entry holds it";
    INLINE_ZERO = 10, "a count above 0 with entry_offset 0";
    COUNTED_ZERO = 10, "a counted item 0";
    LIST_MISSES = 10, "the list misses a committed entry that holds it";
    LIST_EXTRA = 10, "the list has an offset that is no committed entry holding it";
    LIST_REPEATS = 10, "the list has an entry twice";
    LIST_ORDER = 10, "the list has the entries in another order";

    DATA_HASH = 11, "a DATA's hash wrong";
    FIELD_HASH = 11, "a FIELD's hash wrong";
    ITEM_HASH = 11, "an item hash wrong";
    XOR_HASH = 11, "xor_hash wrong";
    NO_EQUALS_SIGN = 11, "a payload without `=`";
    NOTHING_BEFORE = 11, "a payload with nothing before `=`";
    DATA_WRONG_CELL = 11, "a chain's DATA in a wrong cell";
    FIELD_WRONG_CELL = 11, "a chain's FIELD in a wrong cell";
    EQUAL_PAYLOADS = 11, "two equal payloads on the chains";
    EQUAL_NAMES = 11, "two equal names on the chains";
    OTHER_NAME_CHAINED = 11, "the list of a FIELD on its chain holds another name";
    OTHER_NAME_OFF = 11, "the list of a FIELD off its chain holds another name";
    MISSING_FROM_CELL = 11, "a DATA in a committed entry missing from its cell";
    MISSING_FROM_LIST = 11, "a DATA in a committed entry missing from its FIELD's list";
    NO_FIELD = 11, "a DATA in a committed entry, and no FIELD of its name in its cell";
}

// Refusals of an append, in the order of their tests: "25 for an append to 264, straight after 12".
clauses! { APPEND_CLAUSES:
    COMPATIBLE_BIT = 12, "a compatible bit other than bit 1 set";
    BOOT_BIT_WITHOUT_272 = 12, "compatible bit 1 set, and the header is not 272";
    HEADER_OF_264 = 25, "an append to 264";
    NOT_OFFLINE = 13, "state not 0";

    COUNTER_OBJECTS = 14, "n_objects";
    COUNTER_ENTRIES = 14, "n_entries, which counts every ENTRY";
    COUNTER_DATA = 14, "n_data";
    COUNTER_FIELDS = 14, "n_fields";
    COUNTER_TAGS = 14, "n_tags";
    COUNTER_ARRAYS = 14, "n_entry_arrays";
    HEAD_SEQNUM = 14, "head_entry_seqnum";
    TAIL_SEQNUM = 14, "tail_entry_seqnum";
    HEAD_REALTIME = 14, "head_entry_realtime";
    TAIL_REALTIME = 14, "tail_entry_realtime";
    TAIL_MONOTONIC = 14, "tail_entry_monotonic";
    TAIL_ARRAY = 14, "tail_entry_array_offset";
    TAIL_ARRAY_COUNT = 14, "tail_entry_array_n_entries";
    TAIL_ENTRY = 14, "tail_entry_offset";
    DATA_TAIL_ARRAY = 14, "a DATA's tail_entry_array_offset";
    DATA_TAIL_COUNT = 14, "a DATA's tail_entry_array_n_entries";
    DATA_CELL_TAIL = 14, "a data cell's tail";
    FIELD_CELL_TAIL = 14, "a field cell's tail";
    DATA_OFF_CHAIN = 14, "a DATA off its chain";
    FIELD_OFF_CHAIN = 14, "a FIELD off its chain";
    DATA_OFF_LIST = 14, "a DATA off its FIELD's list";
    DATA_WITHOUT_FIELD = 14, "a DATA with no FIELD of its name";
    COUNTED_ABOVE = 14, "a counted item above the last committed";
    ARRAY_TWICE = 14, "an array referred to twice";

    MACHINE_DIFFERS = 15, "machine id differs";

    BADLY_PACKED = 16, "fields badly packed";
    NO_FIELDS = 16, "no fields";
    ABOVE_64_FIELDS = 16, "fields above 64";
    LONG_PAYLOAD = 16, "payload above 4,096 bytes";
    NO_SIGN_IN_FIELD = 16, "payload without `=`";
    EMPTY_NAME = 16, "name of no bytes";
    LONG_NAME = 16, "name above 64 bytes";
    NAME_BYTES = 16, "name with a byte other than A-Z, 0-9, _";
    NAME_DIGIT = 16, "name starting with a digit";

    NEW_SEQNUM_ZERO = 17, "seqnum 0";
    NEW_SEQNUM = 17, "seqnum not above";
    NEW_MONOTONIC = 17, "same boot and monotonic below";

    PASSES_ARENA = 18, "the new objects pass the arena's end";
    LIST_SHORT = 19, "the store list is too short";
}

// Refusal 22 of a batch: "unless 1 to 32 entries fill the buffer, straight after 15".
clauses! { FRAME_CLAUSES:
    NO_ENTRIES = 22, "no entry";
    ABOVE_32_ENTRIES = 22, "entries above 32";
    STAMPS_CUT_SHORT = 22, "fewer bytes left than an entry has before its fields";
    FIELDS_CUT_SHORT = 22, "fewer bytes left than an entry's fields have";
}

// Refusals of a text, and of what is lent for one or for its fields: "in reading 23 for text that is not such
// fields and one empty line, a time not 1 to 20 digits within 64 bits, a boot id not so written or a stamp
// given twice, 24 for a missing stamp, then 16, .. and 28".
clauses! { TEXT_CLAUSES:
    NO_EMPTY_LINE = 23, "no empty line";
    LINE_CUT_SHORT = 23, "a line without its newline";
    LENGTH_CUT_SHORT = 23, "fewer than 8 bytes left for a length";
    VALUE_CUT_SHORT = 23, "fewer bytes left than a length says";
    NO_NEWLINE_BEHIND = 23, "no newline behind a value with a length";
    BYTES_BEHIND = 23, "bytes behind the empty line";
    TIME_DIGITS = 23, "a time not 1 to 20 digits";
    TIME_ABOVE = 23, "a time above 64 bits";
    BOOT_ID_DIGITS = 23, "a boot id not 32 lower-case hex digits";
    STAMP_TWICE = 23, "a stamp given twice";
    NO_REALTIME = 24, "no __REALTIME_TIMESTAMP";
    NO_MONOTONIC = 24, "no __MONOTONIC_TIMESTAMP";
    NO_BOOT_ID = 24, "no _BOOT_ID";
    OUTPUT_SHORT = 28, "the lent output is too short";
}

/// The numbers of an append's refusals in the order of their tests.
pub const APPEND_ORDER: [u64; 9] = [12, 25, 13, 14, 15, 16, 17, 18, 19];

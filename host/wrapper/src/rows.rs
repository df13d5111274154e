//! The refusals 1 to 25 and 28 in words: for each its number, a sentence for a person, and the
//! condition as it stands in the rules' tables.

pub const ROWS: [(u64, &str, &str); 26] = [
    (
        1,
        "this is no journal or only the start of one, it is shorter than a journal's header, so that \
         no result is in it: copy it again, or look for the right file",
        "fewer than 256 bytes",
    ),
    (
        2,
        "the file is longer than the 8 MiB that are read here; its results may be right, but none of \
         them is read: use journalctl for it",
        "more than 8,388,608 bytes",
    ),
    (
        3,
        "this is no journal, its first bytes are not those of one, so that nothing in it is taken for \
         a result: look for the right file, or copy it again",
        "signature differs",
    ),
    (
        4,
        "the file has a form that is not read here, such as compressed; its results may be right, but \
         none of them is read: use journalctl for it",
        "an incompatible bit other than bits 2 and 4",
    ),
    (
        5,
        "the file's end is missing, or its header is of a size that is not read here, so that none of \
         its results is read: copy it again, or use journalctl for it",
        "header_size not 256, 264 or 272, arena_size not a multiple of 8, or their sum above the \
         image length",
    ),
    (
        6,
        "the file is damaged, an object in it has a wrong type, flag or length, or the last one is \
         not where its header says, so that its results can't be found, and none of them is read: \
         copy it again, or restore it from a copy",
        "the walk from the header's end, stopped once past tail_object_offset, misses it (0 \
         included); an object passes the arena's end; type 0; one of flag bits 0 to 2 set; a size \
         wrong: DATA below 65, FIELD below 41, ENTRY below 80 or not 64 + 16n, table below 32 or \
         not 16 + 16n, array below 32 or not 24 + 8n, TAG not 64, type 8 and up below 16; in a \
         compact file DATA below 73, ENTRY below 68 or not 64 + 4n, array below 28 or not 24 + 4n",
    ),
    (
        7,
        "the file is damaged, its two hash tables do not stand at its start as its header says, or \
         there is a third, so that its fields can't be looked up, and none of its results is read: \
         copy it again, or restore it from a copy",
        "the first two objects are not one data and one field table, a later table stands, or the \
         header does not give the tables' payload offset and size",
    ),
    (
        8,
        "the file is damaged, a link in it leads to a wrong place, so that searches could miss \
         results or find wrong ones, and none of its results is read: copy it again, or restore it \
         from a copy",
        "a link not 0 that does not land on an object of its kind: entry_array_offset, array next \
         (strictly later), cell head, next_hash (strictly later, same kind), head_data, \
         next_field (strictly earlier), entry_offset, entry_array; or an ENTRY item that is not \
         DATA, or items not strictly rising",
    ),
    (
        9,
        "the file is damaged, its entries are not all there or not in order, so that results could \
         be missing, and none of them is read: copy it again, or restore it from a copy",
        "n_entries above the chain's items; a committed item that is no ENTRY; offsets or seqnums \
         not strictly rising; seqnum 0; monotonic falling between neighbours of equal boot id",
    ),
    (
        10,
        "the file is damaged, the list of the entries with some field is wrong, so that searches \
         could miss results or find wrong ones, and none of its results is read: copy it again, or \
         restore it from a copy",
        "a DATA's chain too short for its count, or its list differs from the committed entries \
         that hold it",
    ),
    (
        11,
        "the file is damaged, a field or an entry does not fit its hash or its place in the index, \
         so that it may not be what was written, and none of the file's results is read: copy it \
         again, or restore it from a copy",
        "a hash, item hash (a compact file has none) or xor_hash wrong; a payload without `=` or with nothing before it; a \
         chain object in a wrong cell; two equal payloads or names on the chains; a FIELD's list \
         holding another name; a DATA in a committed entry missing from its cell or its FIELD's \
         list, or no FIELD of its name in its cell",
    ),
    (
        12,
        "the file has a feature that an append would break, such as a seal: it can be read, append \
         to a new file",
        "a compatible bit other than bit 1, or bit 1 where header_size is not 272",
    ),
    (
        13,
        "the file is in use, or an append to it was cut off: it can be read, append to a new file",
        "state not 0 (offline)",
    ),
    (
        14,
        "the file's counters or indexes do not agree with its entries, as after an append that was \
         cut off: it can be read, append to a new file",
        "a header counter (n_entries counts every ENTRY), head or tail fact or cell tail disagrees \
         with the objects (head and tail seqnum and realtime 0 when empty; tail_entry_monotonic \
         free when empty; chain depths and boot id never checked); of tail_entry_array_offset, \
         tail_entry_array_n_entries and tail_entry_offset one that the header has is not the array \
         of the last committed item, the committed items in it, the last entry (0 when empty); in a \
         compact file a DATA's tail_entry_array_offset or tail_entry_array_n_entries is not the array \
         of its last counted item, the counted items in it (0 if none is in an array); a DATA or \
         FIELD off its chain, a DATA off its FIELD's list or with no FIELD of its name; a counted \
         item above the last committed; an array referred to twice",
    ),
    (
        15,
        "the file belongs to another machine: append to it there, or to a file of this machine",
        "machine id differs",
    ),
    (
        16,
        "a field can't be taken: give 1 to 64 of them, each NAME=VALUE of at most 4,096 bytes, with \
         a name of 1 to 64 of A-Z, 0-9 and _ that does not start with a digit",
        "fields badly packed, none or above 64 (repeats counted); payload above 4,096 bytes or \
         without `=`; name not 1 to 64 of A-Z, 0-9, _ or starting with a digit",
    ),
    (
        17,
        "the entry would not come after the last one: give a higher sequence number, and in the same \
         boot a monotonic time that is not earlier",
        "seqnum 0; or against the last committed entry, if any: seqnum not above, same boot and \
         monotonic below",
    ),
    (
        18,
        "the file is full: make a new one",
        "the new objects pass the arena's end",
    ),
    (
        19,
        "the list for the stores is too short: lend a longer one",
        "the lent store list (16 bytes a store: offset, value) is too short; the number of stores \
         needed comes back too",
    ),
    (
        20,
        "a file of this size, with these numbers of cells and this header can't be made: give another \
         size, other numbers, or a header of 256 or 272 bytes",
        "length a multiple of 8, at most 8,388,608; 1 to 65,536 data cells, 1 to 1,024 field \
         cells; keyed or not; header_size 256 or 272; otherwise, or if the tables do not fit, 20",
    ),
    (
        21,
        "the stores are not of this file, and nothing was written: plan the append again",
        "k above the number of whole stores in the list, or among those k an offset not a multiple \
         of 8 or with fewer than 8 bytes left",
    ),
    (
        22,
        "the entries are not packed as a batch: give 1 to 32 of them, each with its stamps, the length of \
         its fields and the fields",
        "not 1 to 32 entries that fill the buffer",
    ),
    (
        23,
        "the text is no entry in the Journal Export Format, as where it is cut short or a stamp in it is \
         wrong: have it exported again",
        "text that is not such fields and one empty line, a time not 1 to 20 digits within 64 bits, a boot \
         id not 32 lower-case hex digits or a stamp given twice",
    ),
    (
        24,
        "the text does not say when its entry was made or in which boot: have it exported with all its \
         stamps",
        "a missing stamp: __REALTIME_TIMESTAMP, __MONOTONIC_TIMESTAMP or _BOOT_ID",
    ),
    (
        25,
        "the file has a header of 264 bytes, as systemd 252 and 253 made them: it can be read, append \
         to a new file",
        "header_size is 264",
    ),
    (
        28,
        "the buffer for the answer is too short: lend a longer one",
        "the lent output or field buffer is too short",
    ),
];

//! What `help` says of the commands that only read.

/// Which entries, and how they are printed: the same for `list`, `find` and `newest`.
macro_rules! options {
    () => {
        "  --since T, --until T   those from this wall time on, and up to this one
  -n N                   the last N of them
  --reverse              in the opposite order
  --fields A,B           these fields in columns of their own
  -o FORM                table, tsv, csv, or json: one object a line
  --no-header            without the line of headings

A T is like '2026-11-15 14:23:44.5 +0100' or 2026-11-15T13:23:44.5Z, in local
time where it has no zone; a date (its midnight), a time of day (of today), now,
or a number of microseconds since 1970.
Bytes that do not print show as \\xNN, a backslash as \\\\; a field's values, where
an entry has several, with \\| between them. JSON is as journalctl gives it:
numbers are strings, several values an array, and a value that is no text an
array of its bytes.
"
    };
}

/// What `list`, `find` and `values` have in another way.
macro_rules! plain {
    () => {
        "With --plain before the command: by a plain reader, of one file, without its
indexes. It is slow: the file is judged anew for each answer, and must pass 14.
"
    };
}

pub const READS: [(&str, &str); 10] = [
    (
        "list",
        concat!(
            "\
list FILE [FILE2]: a line for each committed entry, in order; of two files as
one stream, with the number of the file

",
            options!(),
            plain!()
        ),
    ),
    (
        "show",
        "\
show FILE [FILE2] SEQNUM: one entry with all its fields
show FILE [FILE2] last: the last entry, of two files the last of their stream

Of two files all entries with the number are shown, since each may have one.
Bytes that do not print show as \\xNN, a backslash as \\\\.
",
    ),
    (
        "find",
        concat!(
            "\
find FILE [FILE2] --seqnum N: the first entry with this number or above
find FILE [FILE2] --time T: the first in order at this wall time or later; where
a clock was set back, entries behind it may be of earlier times
find FILE [FILE2] --field NAME=VALUE ..: the entries that hold this very field,
of several --field all of them. NAME=VALUE is typed as it is printed: \\xNN is a
byte, \\\\ a backslash, and no other backslash is taken.

",
            options!(),
            plain!()
        ),
    ),
    (
        "newest",
        concat!(
            "\
newest FILE [FILE2] NAME: each value of a field once, with the newest entry that
holds it, the newest first. Newest is by the order of the entries, of two files
of their stream. More of that entry: newest FILE LOT --fields RESULT

",
            options!()
        ),
    ),
    (
        "values",
        concat!(
            "\
values FILE [FILE2] NAME: the values of a field, each once. They are by falling
DATA offset: the value that first appeared last comes first. That is not the one
of the newest entry; newest FILE NAME has that one first.

Of two files: those of the first, then those that only the second has.
A line can be given back: find FILE --field \"NAME=$line\" (read it by read -r).
",
            plain!()
        ),
    ),
    (
        "export",
        "\
export FILE [FILE2]: all committed entries in order, of two files as one stream,
as text in systemd's Journal Export Format: of each both times and the boot
id, its fields and an empty line. Sequence numbers do not go out, nor do
fields named _BOOT_ID or with two underscores in front.

An entry with a field that no append would take, such as one of more than 4096
bytes, can't be exported. Nothing is written from there on, the message names it
and says how many are written, and the status is 4.
",
    ),
    (
        "check",
        "\
check FILE: whether the file can be read; then whether it takes appends, and
else why not; how much room is left in it; how long its header is, whether the
file is compact, and whether the boot id there is that of the last entry; where
it has foreign objects, how many and of which types, up to 100 of them; and
whether a redo list stands beside it, FILE.redo

Where it can't be read, the status is 3, and standard error has in lines: what
is wrong, where, what that means for the results and what to do; the number of
the refusal and the words of its rule; the place of the first fault; and where
a hash there is wrong, the one that is stored and the right one. The other
commands say the first two of these in one line. why FILE has the bare facts.
",
    ),
    (
        "why",
        "\
why FILE: the facts on a file that is refused, a name and its value a line, for
tools and the help desk. The status is 0 also where it is refused: that is what
was asked for. check FILE says the same to a person.

  refusal N              the number, 1 to 11; 0 for a file that opens, and then
                         there is no other line
  rule WORDS             the rule of this number
  place N                the offset of the first object at fault, 0 the header
  object TYPE            its type: DATA, FIELD, ENTRY, DATA_HASH_TABLE,
                         FIELD_HASH_TABLE, ENTRY_ARRAY, TAG, UNUSED, a number
                         that has no name; or header
  position N             at 9, in place of these two: the first committed entry
                         at fault, counted from 0
  stored HASH            at 11, if a hash there is wrong: the first one, and
  right HASH             what it ought to be, both in 16 hexadecimal digits

  -o json                all of it as one object
",
    ),
    (
        "foreign",
        "\
foreign FILE: a line for each foreign object, in the order of the file: where it
stands and its type, 8 to 255. Such a type is not known here; a newer systemd
may have written it. Reading walks over these objects: nothing of them is in any
entry, field or value that is printed.

  -o FORM                table, tsv, csv, or json: one object a line
  --no-header            without the line of headings

Each is looked for from the start of the file: thousands of them take long.
",
    ),
    (
        "room",
        "\
room --entries N NAME=BYTES[/VALUES] ..: how many bytes a file takes that holds
N entries with these fields. The values of NAME have BYTES bytes, and VALUES of
them come in turn; where VALUES is not given, each entry has a new one.

  --size 64K             the length of the file, 8M if not given; where that is
                         too short, the last line says how many entries it holds
  --data-cells N, --field-cells N
                         the cells of its hash tables, if not as new makes them
  --header-size N        256 or 272; 256 if not given

The numbers are those of a file that new made and append alone writes. Arrays
have room for entries to come: room is for how many, those that are there
included, and at most is what it never passes: 2n + 2 with n entries in the
file, and 2n for each DATA, a NAME with its value, that n entries hold.
",
    ),
];

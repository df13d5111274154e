//! What `help` says of the commands that write.

pub const WRITES: [(&str, &str); 4] = [
    (
        "new",
        "\
new FILE: makes a file, and never overwrites one; none that is compact

  --size 64K             its length, in bytes or with K or M; 8M if not given
  --data-cells N, --field-cells N
                         the cells of its hash tables
  --unkeyed              with the hash of older files
  --header-size N        256, or 272 as systemd 254 and later have it; 256 if
                         not given: journalctl 252 verifies none with 272
  --machine ID, --boot ID
                         in place of this machine's; 32 hexadecimal digits
  --seqnum-id ID         the id that its entries are numbered under, to go on
                         with the numbers of a file that is full
  --quiet                says nothing where all went well
",
    ),
    (
        "append",
        "\
append FILE NAME=VALUE ..: one entry more, which is on the disk when this ends.
A field is taken as its bytes are.
append --batch FILE: an entry for each line of standard input, or of the file
that --from TEXT names. Fields have tabs between them and are typed as they are
printed: \\xNN is a byte, \\\\ a backslash. Empty lines are passed over. They go
out 32 at a time; where one is refused, none of its 32 is appended.

  --sync WAY             of a batch. redo, if none is given: 4 syncs; FILE.redo
                         has its stores until they are on the disk, and after a
                         power cut this program finishes the file by it, while
                         others may see it half done. places: some 5 syncs an
                         entry, the file alone is always right. end: 1 sync; if
                         the system or the disk does not keep the order of
                         stores, a power cut may ruin the file
  --seqnum N             its number, if not the next one; a batch counts on
  --time T               its wall time, if not now
  --monotonic T          its monotonic time in microseconds
  --machine ID, --boot ID
                         in place of this machine's; 32 hexadecimal digits
  --anyway               takes a time that is hardly meant: 0, above what
                         journalctl shows, or more than a day past the clock
  --wait SECONDS         how long to wait for another program's lock
  --quiet                says nothing where all went well
",
    ),
    (
        "import",
        "\
import FILE: appends the entries of a text in the Journal Export Format, as
export or journalctl -o export print it, from standard input. Both times and the
boot id are those of the text, the numbers go on from the last one of the file.
Fields with two underscores in front, such as __CURSOR, are passed over.

They go out 32 at a time. At the first entry that is not taken it stops: those
before it are appended, and the message says how many, the number of that entry
in the text, the line on which it starts and why. The rest of the text is then
had by: tail -n +LINE TEXT

  --from TEXT            reads this file, and not standard input
  --seqnum N             the number of the first entry, if not the next one
  --sync WAY             how they reach the disk: redo, places or end, as help
                         append has it; redo if none is given
  --machine ID           in place of this machine's; 32 hexadecimal digits
  --wait SECONDS         how long to wait for another program's lock
  --quiet                says nothing where all went well
",
    ),
    (
        "copy",
        "\
copy FILE TO: a copy made while no append is at work, so that it takes appends
as the file does. Where a redo list stands beside the file, the copy is of the
finished file. Never overwrites a file.

  --wait SECONDS         how long to wait for another program's lock
  --quiet                says nothing where all went well
",
    ),
];

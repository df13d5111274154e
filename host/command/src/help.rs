//! What `help` says: a screen of all commands, and one for each of them.
use crate::fault::Fault;
use crate::help_reads::READS;
use crate::help_writes::WRITES;
use crate::text::shown;
use std::ffi::OsString;
use std::os::unix::ffi::OsStrExt;

/// The help that some words ask for, if they do: `help`, `help COMMAND`, or a command with `--help`
/// or `-h` before any `--`.
pub fn asked_for(words: &[OsString]) -> Option<Result<&'static str, Fault>> {
    let options = words.iter().take_while(|word| *word != "--");
    let mut others = words.iter();
    let about = match words.first() {
        Some(first) if first == "help" => others.nth(1),
        _ if options
            .into_iter()
            .any(|word| word == "--help" || word == "-h") =>
        {
            others.next()
        }
        _ => return None,
    };
    let Some(about) = about.filter(|word| !word.as_bytes().starts_with(b"-")) else {
        return Some(Ok(ALL));
    };
    let of_it = READS.iter().chain(&WRITES).find(|(name, _)| about == name);
    let none = || Fault::usage(format!("no command {}", shown(about.as_bytes())));
    Some(of_it.map(|&(_, text)| text).ok_or_else(none))
}

const ALL: &str = "\
journal: reads and writes systemd journal files up to 8 MiB; more: help COMMAND
  list FILE                      a line for each committed entry
  show FILE SEQNUM               one entry with all its fields; also: last
  find FILE --seqnum N           the first entry with this number or above
  find FILE --time T             the first in order at this wall time or later
  find FILE --field NAME=VALUE   the entries that hold this very field
  newest FILE NAME               each value of a field with its newest entry
  values FILE NAME               field values by first appearance, last first
  check FILE                     whether it can be read and takes appends
  why FILE                       the facts on a file that is refused, one a line
  foreign FILE                   objects of types not known here, walked over
  room --entries N NAME=BYTES    the bytes that a file of so many entries takes
  new FILE                       makes a file, and never overwrites one
  append FILE NAME=VALUE ..      one entry more, on the disk when this ends
  append --batch FILE            an entry for each line of standard input
  export FILE                    its entries as text, for another bank
  import FILE                    the entries of such a text from another bank
  copy FILE TO                   a copy without half an append in it
  --plain COMMAND                list, find and values by a plain reader, slowly

list, show, find, newest, values, export take FILE FILE2 too, as one stream;
list, find, newest have --since T, -n N, --fields A,B, -o json and others. Bytes
that do not print show as \\xNN, a backslash as \\\\. Status: 0 done; 1 not found
or failed; 2 typed wrongly; 3 file, 4 entry refused; 5 file full; 6 lock taken.
";

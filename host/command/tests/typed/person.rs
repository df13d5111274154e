//! Somebody who types commands, in a folder of their own.
use crate::plain;
use std::ffi::OsStr;
use std::path::{Path, PathBuf};
use std::process::{Command, Output};

/// The machine and the boot of the files here.
pub const MACHINE: &str = "02020202020202020202020202020202";
pub const BOOT: &str = "05050505-0505-0505-0505-050505050505";

/// What a command said, and its status; none where a signal ended it.
#[derive(Debug, PartialEq, Eq)]
pub struct Said {
    pub out: String,
    pub err: String,
    pub status: Option<i32>,
}

impl From<Output> for Said {
    fn from(output: Output) -> Said {
        Said {
            out: String::from_utf8(output.stdout).expect("what it prints is text"),
            err: String::from_utf8(output.stderr).expect("what it says is text"),
            status: output.status.code(),
        }
    }
}

impl Said {
    /// What it printed; it was done, and nothing else was said.
    pub fn done(self) -> String {
        assert_eq!((self.status, &*self.err), (Some(0), ""), "{}", self.out);
        self.out
    }

    /// What it said in its one line, without its name; it printed nothing.
    pub fn failed(self, status: i32) -> String {
        assert_eq!(
            (self.status, &*self.out),
            (Some(status), ""),
            "{}",
            self.err
        );
        let line = self.err.strip_prefix("journal: ").expect("its name");
        let line = line.strip_suffix('\n').expect("a whole line");
        assert!(!line.contains(|it: char| it.is_control()), "{line:?}");
        line.to_string()
    }

    /// The same; the status is the one that goes with these words.
    pub fn failed_so(self) -> String {
        let status = status_of(&self.err);
        self.failed(status)
    }

    /// The same of what a file is the matter with: the words after its name.
    pub fn failed_with(self, file: &Path) -> String {
        let line = self.failed_so();
        let words = line.strip_prefix(&format!("{}: ", file.display()));
        words.unwrap_or_else(|| panic!("{line}")).to_string()
    }

    /// The number that the library refused a file with: it comes after a sentence for a person,
    /// and before the condition in the words of the rules.
    pub fn refused(self, file: &Path) -> u64 {
        let line = self.failed_with(file);
        let (sentence, rule) = line.split_once(" (refusal ").expect("a sentence first");
        assert!(sentence.len() > 20, "{line}");
        let rule = rule.strip_suffix(')').expect("the rule is last");
        let (number, condition) = rule.split_once(": ").expect("a number, and words");
        assert!(condition.len() > 10, "{line}");
        number.parse().expect("a number")
    }
}

/// The status that goes with what is said of a file: 3 where it is refused, 4 where an entry or a
/// new file is, 5 where a file is full, 6 where another program has its lock, else 1.
fn status_of(line: &str) -> i32 {
    let rule = line.split_once(" (refusal ").map(|(_, rule)| rule);
    let number = rule.and_then(|rule| rule.split_once(": ")?.0.parse::<u64>().ok());
    match number {
        Some(1..=11) => 3,
        Some(18) => 5,
        Some(_) => 4,
        None if line.ends_with(" (--anyway appends it)\n") => 4,
        None if line.contains(": another program appends to it") => 6,
        None => 1,
    }
}

/// The program, in UTC.
pub fn program() -> Command {
    let mut command = Command::new(env!("CARGO_BIN_EXE_journal"));
    command.env("TZ", "UTC0");
    command
}

pub fn said(command: &mut Command) -> Said {
    Said::from(command.output().expect("it runs"))
}

/// `journal NAME FILE WORDS`, which has to be the same by the plain reader.
pub fn typed<I: AsRef<OsStr>>(name: &str, file: &Path, words: &[I]) -> Said {
    let said = said(program().arg(name).arg(file).args(words));
    plain::set_against(name, file, words, &said);
    said
}

/// The same without words.
pub fn asked(name: &str, file: &Path) -> Said {
    typed::<&str>(name, file, &[])
}

/// The first line of what `check` says of a file that opens.
pub fn checked(file: &Path) -> String {
    let text = asked("check", file).done();
    let end = text.find('\n').expect("a line");
    text[..=end].to_string()
}

/// An empty folder for a test.
pub fn folder(name: &str) -> PathBuf {
    let folder = Path::new(env!("CARGO_TARGET_TMPDIR")).join(format!("typed-{name}"));
    if folder.exists() {
        std::fs::remove_dir_all(&folder).expect("the folder of an earlier run");
    }
    std::fs::create_dir(&folder).expect("a folder");
    folder
}

/// A file with these bytes.
pub fn file(folder: &Path, name: &str, bytes: &[u8]) -> PathBuf {
    let path = folder.join(name);
    std::fs::write(&path, bytes).expect("a file");
    path
}

pub fn bytes(path: &Path) -> Vec<u8> {
    std::fs::read(path).expect("the file is there")
}

/// A new file of some bytes, made by the program.
pub fn made(folder: &Path, name: &str, size: &str) -> PathBuf {
    let path = folder.join(name);
    let words = ["--size", size, "--machine", MACHINE, "--boot", BOOT];
    typed("new", &path, &words).done();
    path
}

/// An append with all that could be chosen for it; the options before its fields.
pub fn options(seqnum: u64) -> Vec<String> {
    let time = 1_700_000_000_000_000 + seqnum;
    [
        ("--seqnum", seqnum.to_string()),
        ("--time", time.to_string()),
        ("--monotonic", (50 + seqnum).to_string()),
        ("--machine", MACHINE.to_string()),
        ("--boot", BOOT.to_string()),
    ]
    .into_iter()
    .flat_map(|(name, value)| [name.to_string(), value])
    .collect()
}

/// Such an append.
pub fn append(file: &Path, seqnum: u64, fields: &[&str]) -> Said {
    let fields = fields.iter().map(|field| field.to_string());
    typed(
        "append",
        file,
        &[options(seqnum), fields.collect()].concat(),
    )
}

//! A file on disk, and what journalctl says of it.
use std::path::{Path, PathBuf};
use std::process::{Command, Output, Stdio};
use std::sync::atomic::{AtomicU64, Ordering};
use std::sync::OnceLock;

use reading::image::{le32, le64};
use reading::layout::{header, TAIL_ENTRY_BOOT_ID};

/// An image in a file of its own, which goes when this does.
pub struct File(PathBuf);

/// The version of systemd that journalctl is of: `systemd 252 (252.38-1)`.
fn version() -> u64 {
    static VERSION: OnceLock<u64> = OnceLock::new();
    *VERSION.get_or_init(|| {
        let output = Command::new("journalctl").arg("--version").output();
        let output = output.expect("journalctl runs").stdout;
        let text = String::from_utf8(output).expect("it is text");
        let number = text.split_whitespace().nth(1).expect("a version");
        let digits = number.split(|it: char| !it.is_ascii_digit()).next();
        digits.and_then(|it| it.parse().ok()).expect("a number")
    })
}

/// Compatible bit 1 came with systemd 254. Before that `--verify` takes no file that has it, though
/// the rest of journalctl reads it.
pub fn knows_the_boot_bit() -> bool {
    version() >= 254
}

/// Whether journalctl can be asked of an image: systemd 254 answers `No data available` to a header of
/// 272 whose tail_entry_offset is 0, as in a file without entries, or whose
/// tail_entry_array_n_entries is above n_entries, as before the commit store of a first entry.
pub fn can_be_asked(image: &[u8]) -> bool {
    if !knows_the_boot_bit() || le64(image, header::HEADER_SIZE) < 272 {
        return true;
    }
    let counted = le32(image, header::TAIL_ENTRY_ARRAY_N_ENTRIES);
    let n_entries = le64(image, header::N_ENTRIES);
    le64(image, header::TAIL_ENTRY_OFFSET) != 0 && u64::from(counted) <= n_entries
}

impl File {
    pub fn new(image: &[u8]) -> File {
        static NUMBER: AtomicU64 = AtomicU64::new(0);
        let number = NUMBER.fetch_add(1, Ordering::Relaxed);
        let name = format!("{}-{number}.journal", std::process::id());
        let path = Path::new(env!("CARGO_TARGET_TMPDIR")).join(name);
        std::fs::write(&path, image).expect("a file for journalctl");
        File(path)
    }

    /// journalctl with nothing of this process's settings but where programs are.
    fn journalctl(&self, arguments: &[&str]) -> Output {
        let path = std::env::var_os("PATH").expect("a path to journalctl");
        Command::new("journalctl")
            .env_clear()
            .env("PATH", path)
            .arg(format!("--file={}", self.0.display()))
            .args(["--no-pager", "--quiet"])
            .args(arguments)
            .stdin(Stdio::null())
            .output()
            .expect("journalctl runs")
    }

    /// `journalctl --verify`: whether it passes the file, or else what it says. One that does not know
    /// compatible bit 1 gets a copy without it, which differs in nothing else.
    pub fn verify(&self) -> Result<(), String> {
        let mut image = std::fs::read(&self.0).expect("the file is there");
        let flags = &mut image[header::COMPATIBLE_FLAGS as usize];
        let bit = TAIL_ENTRY_BOOT_ID as u8;
        if *flags & bit == 0 || knows_the_boot_bit() {
            return self.verify_as_it_is();
        }
        *flags &= !bit;
        File::new(&image).verify_as_it_is()
    }

    /// The same of the file itself, whoever knows its flags.
    fn verify_as_it_is(&self) -> Result<(), String> {
        let output = self.journalctl(&["--verify"]);
        match output.status.success() {
            true => Ok(()),
            false => Err(String::from_utf8_lossy(&output.stderr).into_owned()),
        }
    }

    /// What it prints of this file and another as one stream.
    pub fn prints_with(&self, other: &File, arguments: &[&str]) -> Vec<u8> {
        let file = format!("--file={}", other.0.display());
        self.prints(&[&[&file[..]], arguments].concat())
    }

    /// What it prints. It ends well and has nothing to complain of.
    pub fn prints(&self, arguments: &[&str]) -> Vec<u8> {
        let output = self.journalctl(arguments);
        let said = String::from_utf8_lossy(&output.stderr);
        assert!(output.status.success(), "{arguments:?}: {said}");
        assert_eq!(said, "", "{arguments:?}");
        output.stdout
    }
}

impl Drop for File {
    fn drop(&mut self) {
        std::fs::remove_file(&self.0).expect("the file is there");
    }
}

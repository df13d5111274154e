//! The ids of files, machines and boots: 16 bytes.
use crate::fault::Fault;
use std::fs::File;
use std::io::Read;
use std::path::Path;

pub type Id = [u8; 16];

/// 32 hexadecimal digits, also in groups with dashes as the kernel writes its boot id.
pub fn parsed(text: &str) -> Option<Id> {
    let digits = text.replace('-', "");
    let right = digits.len() == 32 && digits.bytes().all(|byte| byte.is_ascii_hexdigit());
    let number = u128::from_str_radix(&digits, 16).ok()?;
    right.then_some(number.to_be_bytes())
}

pub fn shown(id: &Id) -> String {
    id.iter().map(|byte| format!("{byte:02x}")).collect()
}

/// This machine's.
pub fn machine() -> Result<Id, Fault> {
    stated("/etc/machine-id", "--machine")
}

/// The one of this machine's present boot.
pub fn boot() -> Result<Id, Fault> {
    stated("/proc/sys/kernel/random/boot_id", "--boot")
}

fn stated(file: &str, option: &str) -> Result<Id, Fault> {
    let text = std::fs::read_to_string(file).unwrap_or_default();
    parsed(text.trim_end())
        .ok_or_else(|| Fault::of(Path::new(file), format!("has no id: give one by {option}")))
}

/// The one of the machine that a journal belongs to, from the file's header: 16 bytes at 40.
pub fn machine_of(image: &[u8]) -> Id {
    image[40..56].try_into().expect("16 bytes")
}

/// A random one.
pub fn random() -> Result<Id, Fault> {
    let source = Path::new("/dev/urandom");
    let mut id = [0; 16];
    File::open(source)
        .and_then(|mut file| file.read_exact(&mut id))
        .map_err(|error| Fault::system(source, &error))?;
    Ok(id)
}

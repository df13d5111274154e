//! How long a file and its parts without entries are, as `new` makes it and `room` counts it.
use crate::arguments::number;
use crate::fault::Fault;
use crate::words::Words;
use std::ffi::OsStr;
use wrapper::LONGEST_IMAGE;

pub struct Sizes {
    /// Of all of the file, in bytes.
    pub size: u64,
    pub data_cells: u64,
    pub field_cells: u64,
    /// In bytes.
    pub header_size: u64,
}

/// The options.
pub const NAMES: [&str; 4] = ["--size", "--data-cells", "--field-cells", "--header-size"];

/// A longer header goes with compatible bit 1, and journalctl of systemd 252 verifies no file that
/// has it.
pub const HEADER_SIZE: u64 = 256;

/// A table without its cells, and a cell.
const TABLE: u64 = 16;
const CELL: u64 = 16;

impl Sizes {
    /// What was asked for; the rest is chosen here.
    pub fn new(words: &Words) -> Result<Sizes, Fault> {
        let size = words.option("--size", size)?.unwrap_or(LONGEST_IMAGE);
        let [data_cells, field_cells, header_size] =
            ["--data-cells", "--field-cells", "--header-size"].map(|it| words.option(it, number));
        // A cell for each KiB, and one for a field for each 16: some hundredth of the file.
        Ok(Sizes {
            size,
            data_cells: data_cells?.unwrap_or((size / 1_024).max(1)),
            field_cells: field_cells?.unwrap_or((size / 16_384).max(1)),
            header_size: header_size?.unwrap_or(HEADER_SIZE),
        })
    }

    /// The bytes of the header and the two tables, whose cells are not too many.
    pub fn without_entries(&self) -> u64 {
        self.header_size + 2 * TABLE + CELL * (self.data_cells + self.field_cells)
    }
}

/// Bytes, or KiB or MiB with K or M after the number.
fn size(value: &OsStr) -> Result<u64, String> {
    let text = value.to_string_lossy();
    let (digits, unit) = match text.strip_suffix('K') {
        Some(digits) => (digits, 1 << 10),
        None => text
            .strip_suffix('M')
            .map_or((&*text, 1), |digits| (digits, 1 << 20)),
    };
    let wrong = "no size: it is bytes, or like 64K or 8M".to_string();
    let right = !digits.is_empty() && digits.bytes().all(|byte| byte.is_ascii_digit());
    if !right {
        return Err(wrong);
    }
    let number = digits.parse::<u64>().ok();
    let bytes = number.and_then(|number| number.checked_mul(unit));
    bytes.ok_or("above 2^64 - 1".to_string())
}

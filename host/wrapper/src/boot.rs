//! What the boot id in the header means.
use crate::raw;
use crate::refusal::Refusal;

/// Whose boot the header's boot id is, as the file says it of itself. The id is no answer of a call:
/// that of an entry is in its stamps.
#[derive(Clone, Copy, Debug, PartialEq, Eq)]
pub enum BootMeaning {
    /// That of the last entry: compatible bit 1 is set.
    OfTailEntry,
    /// That of the last writer, which need not be that of the last entry: older writers store theirs
    /// whenever they open a file, also where they only archive it.
    OfLastWriter,
}

/// What the header's boot id means, by compatible bit 1 alone, whatever the header's size.
///
/// ```
/// use wrapper::{boot_meaning, new, BootMeaning};
///
/// let mut image = vec![0; 4_096];
/// new(&mut image, &[7; 64], 1, 1, true, 272)?;
/// assert_eq!(boot_meaning(&image), Ok(BootMeaning::OfTailEntry));
/// new(&mut image, &[7; 64], 1, 1, true, 256)?;
/// assert_eq!(boot_meaning(&image), Ok(BootMeaning::OfLastWriter));
///
/// // What does not open says nothing.
/// let refusal = boot_meaning(&image[..4_000]).expect_err("its end is missing");
/// assert_eq!(refusal.number(), 5);
/// # Ok::<(), Box<dyn std::error::Error>>(())
/// ```
pub fn boot_meaning(image: &[u8]) -> Result<BootMeaning, Refusal> {
    let answer = raw::boot_meaning(image);
    Refusal::check(answer.refusal)?;
    Ok(match answer.of_tail_entry {
        0 => BootMeaning::OfLastWriter,
        _ => BootMeaning::OfTailEntry,
    })
}

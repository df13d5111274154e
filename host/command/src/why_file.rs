//! Why a file is refused, in a sentence for a person that is the same for every command: what is wrong,
//! where, what it means for the results, and what to do. The number is the library's, and so is the
//! place of what is damaged; which condition applies is told by the image that was judged.
use crate::image::{word, ARENA_SIZE, HEADER_SIZE};
use crate::why_damaged;
use wrapper::{Refusal, Why};

/// What to do about a file that is not whole.
pub const AGAIN: &str = "copy it again, or restore it from a copy";

/// What it means that a file is of another kind than those that are read.
const UNREAD: &str = "its results may be right, but none of them is read: use journalctl for it";

/// Where the header has the two words of flags, and the state.
const COMPATIBLE_FLAGS: usize = 8;
const INCOMPATIBLE_FLAGS: usize = 12;
const STATE: usize = 16;

/// The sentence on an image that is refused.
pub fn sentence(image: &[u8], refusal: Refusal) -> String {
    match refusal.number() {
        6..=11 => match wrapper::why(image) {
            Some(why) if why.refusal == refusal => of(image, &why),
            _ => refusal.sentence().to_string(),
        },
        _ => by_header(image, refusal),
    }
}

/// The same where the library has said why.
pub fn of(image: &[u8], why: &Why) -> String {
    let general = || why.refusal.sentence().to_string();
    match why.refusal.number() {
        6..=11 => why_damaged::sentence(image, why).unwrap_or_else(general),
        _ => by_header(image, why.refusal),
    }
}

/// The one that is told by the file's length and its header; else the library's own.
fn by_header(image: &[u8], refusal: Refusal) -> String {
    let header = Header { image };
    let own = match refusal.number() {
        1 => Some(header.short()),
        4 => header.form(),
        5 => header.size(),
        12 => header.feature(),
        13 => header.state(),
        _ => None,
    };
    own.unwrap_or_else(|| refusal.sentence().to_string())
}

/// An image, of which the header is looked at.
struct Header<'a> {
    image: &'a [u8],
}

impl Header<'_> {
    fn flags(&self, at: usize) -> u32 {
        u32::from_le_bytes(self.image[at..at + 4].try_into().expect("4 bytes"))
    }

    /// 1: shorter than any header that is read.
    fn short(&self) -> String {
        match self.image.len() {
            0 => format!("the file is empty, so that no result is in it: {AGAIN}"),
            length => format!(
                "this is no journal or only the start of one, it has {length} bytes, fewer than a \
                 journal's header, so that no result is in it: {AGAIN}, or look for the right file"
            ),
        }
    }

    /// 4: incompatible bits other than bit 2 and bit 4.
    fn form(&self) -> Option<String> {
        let flags = self.flags(INCOMPATIBLE_FLAGS) & !(4 | 16);
        match flags {
            0 => None,
            32.. => Some(format!(
                "the file's header names a form that is not known here, likely of a newer systemd; \
                 {UNREAD}, or a newer version of this program"
            )),
            _ => {
                let names = [(1, "xz"), (2, "lz4"), (8, "zstd")];
                let names = names.iter().filter(|(bit, _)| flags & bit != 0);
                let names = Vec::from_iter(names.map(|&(_, name)| name)).join(" and ");
                Some(format!(
                    "the file may hold fields compressed by {names}, which are not read here; {UNREAD}"
                ))
            }
        }
    }

    /// 5: the sizes of header and arena.
    fn size(&self) -> Option<String> {
        let [header, arena] = [HEADER_SIZE, ARENA_SIZE].map(|at| word(self.image, at));
        let (length, end) = (self.image.len(), u128::from(header) + u128::from(arena));
        let bytes = format!("its header has {header} bytes, and 256, 264 or 272 are read here");
        let none = "so that its results can't be found, and none of them is read";
        match header {
            256 | 264 | 272 if arena % 8 != 0 => Some(format!(
                "the file is damaged, its header has an arena_size of {arena}, no multiple of 8, \
                 {none}: {AGAIN}"
            )),
            256 | 264 | 272 if end > length as u128 => Some(format!(
                "the file is shorter than its header says, it has {length} bytes of {end}, so that \
                 results could be missing, and none of them is read: {AGAIN}"
            )),
            256 | 264 | 272 => None,
            // A field more has eight bytes.
            280..=512 if header % 8 == 0 => Some(format!(
                "the file is likely of a newer systemd, {bytes}; {UNREAD}, or a newer version of \
                 this program"
            )),
            208..=248 if header % 8 == 0 => Some(format!(
                "the file is likely of an older systemd, {bytes}; {UNREAD}"
            )),
            _ => Some(format!(
                "the file is damaged, its header has a header_size of {header}, and not 256, 264 or \
                 272, {none}: {AGAIN}"
            )),
        }
    }

    /// 12: compatible bits. journald sets bit 1 in headers of 272 bytes, where it is no hindrance.
    fn feature(&self) -> Option<String> {
        let rest = "it can be read, append to a new file";
        let header = word(self.image, HEADER_SIZE);
        match self.flags(COMPATIBLE_FLAGS) {
            0 => None,
            2 if header == 272 => None,
            flags if flags & (1 | 4) != 0 => Some(format!(
                "the file is sealed, and an append would break the seal: {rest}"
            )),
            2 => Some(format!(
                "the file has a flag of headers of 272 bytes, and its header has {header}: {rest}"
            )),
            _ => Some(format!(
                "the file has a feature of a newer systemd that an append would break: {rest}"
            )),
        }
    }

    /// 13: the state. Of state 1 the library's sentence says all.
    fn state(&self) -> Option<String> {
        match self.image[STATE] {
            0 | 1 => None,
            2 => Some("the file is archived: it can be read, append to a new file".to_string()),
            state => Some(format!(
                "the file has state {state}, which is not known here: it can be read, append to a \
                 new file"
            )),
        }
    }
}

//! What the listing program prints.
use super::image::le64;
use super::layout::entry;
use super::lookup::open;

/// "The listing program reads an image from standard input. More than 65,536 bytes print
/// `refused 2`, any other refusal `refused` and its number." Otherwise "(seqnum, realtime,
/// monotonic, number of items; last, the committed count)". Every line ends with a newline.
pub fn listing(input: &[u8]) -> String {
    if input.len() > 65_536 {
        return "refused 2\n".to_string();
    }
    let journal = match open(input) {
        Ok(journal) => journal,
        Err(number) => return format!("refused {number}\n"),
    };
    let mut text = "seqnum realtime monotonic fields\n".to_string();
    for &offset in &journal.committed {
        let seqnum = le64(input, offset + entry::SEQNUM);
        let realtime = le64(input, offset + entry::REALTIME);
        let monotonic = le64(input, offset + entry::MONOTONIC);
        let object = journal.image.object_at(offset).expect("refusal 9 passed");
        let fields = journal.image.entry_items(&object).len();
        text += &format!("{seqnum} {realtime} {monotonic} {fields}\n");
    }
    text + &format!("entries {}\n", journal.n_entries())
}

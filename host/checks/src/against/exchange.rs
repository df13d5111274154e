//! Entries as text, by the archive and by the reading: each word of the answers, and each byte that was lent.
use super::lent::Lent;
use crate::random::Random;
use reading::exchange::{self, Stamps, Text};
use reading::import::{self, Entry, Imported};
use reading::lookup::Journal;
use reading::refusal::Clause;
use wrapper::raw;

/// What is written where it has room: the text, none, or the refusal.
pub type Written = Result<Option<Vec<u8>>, u64>;

/// The text of the entry at an offset, by the reading.
pub fn exported(opened: &Result<Journal, u64>, offset: u64) -> Written {
    match opened {
        Ok(journal) => journal.exported(offset),
        Err(number) => Err(*number),
    }
}

/// Buffers for so many bytes: none, one too short, just long enough, and longer. Where nothing is written
/// one with room for most texts stays as it was.
fn lengths(need: Option<usize>, tried: u64) -> Vec<usize> {
    let more = tried as usize % 397;
    match need {
        Some(0) | None => vec![0, more, 4_000 + more],
        Some(need) => vec![0, need - 1, need, need + 1, need + 1 + more],
    }
}

/// A buffer of so many bytes that hold anything, lent to be written; what differs.
struct Out {
    should: Vec<u8>,
    lent: Lent,
}

impl Out {
    fn new(length: usize, tried: u64) -> Out {
        let should = Random::new(tried).bytes(length);
        let lent = Lent::new(&should, tried / 7);
        Out { should, lent }
    }

    fn compare(&mut self) -> Result<(), String> {
        match self.lent.after() {
            None => Err("a byte around the buffer changed".to_string()),
            Some(is) if is == self.should => Ok(()),
            Some(is) => {
                let at = is
                    .iter()
                    .zip(&self.should)
                    .position(|(one, two)| one != two);
                Err(format!("byte {at:?} of the buffer is another"))
            }
        }
    }
}

/// What was lent to be read is as it was.
fn unchanged(what: &str, lent: &mut Lent, before: &[u8]) -> Result<(), String> {
    match lent.after() == Some(before) {
        true => Ok(()),
        false => Err(format!("a byte of the {what} or around it changed")),
    }
}

/// A call that writes a text, with buffers of several lengths.
fn write_all(
    written: &Written,
    tried: u64,
    mut call: impl FnMut(&mut [u8]) -> raw::Text,
) -> Result<(), String> {
    let text = match written {
        Ok(text) => Ok(text.as_deref().unwrap_or(&[])),
        Err(number) => Err(*number),
    };
    let need = text.ok().map(<[u8]>::len);
    for (length, n) in lengths(need, tried).into_iter().zip(tried..) {
        let mut out = Out::new(length, n);
        let should = exchange::write(text, &mut out.should);
        let is = call(out.lent.bytes_mut());
        let is = Text {
            refusal: is.refusal,
            len: is.len,
        };
        if is != should {
            return Err(format!("{is:?}, and not {should:?}, in {length} bytes"));
        }
        out.compare()
            .map_err(|what| format!("{what}, of {length}"))?;
    }
    Ok(())
}

/// Exports what is at an offset: what both write, or what differs.
pub fn export(
    image: &[u8],
    opened: &Result<Journal, u64>,
    offset: u64,
    tried: u64,
) -> Result<Written, String> {
    let written = exported(opened, offset);
    let mut lent = Lent::new(image, tried);
    write_all(&written, tried, |out| {
        raw::export(lent.bytes(), offset, out)
    })?;
    unchanged("image", &mut lent, image)?;
    Ok(written)
}

/// The text of an entry without a file: what both write, or what differs.
pub fn text(stamps: &Stamps, fields: &[u8], tried: u64) -> Result<Written, String> {
    let written = exchange::text(stamps, fields);
    let written = written.map(Some).map_err(|found| found[0].number);
    let mut boot = Lent::new(&stamps.boot_id, tried / 3);
    let mut packed = Lent::new(fields, tried);
    write_all(&written, tried, |out| {
        let boot_id = boot.bytes().try_into().expect("16 bytes");
        raw::text(
            stamps.realtime,
            stamps.monotonic,
            boot_id,
            packed.bytes(),
            out,
        )
    })?;
    unchanged("boot id", &mut boot, &stamps.boot_id)?;
    unchanged("fields", &mut packed, fields)?;
    Ok(written)
}

/// Imports a text, with buffers of several lengths: what both read, or what differs.
pub fn import(text: &[u8], tried: u64) -> Result<Result<Entry, Vec<Clause>>, String> {
    let read = import::import(text);
    let need = read.as_ref().ok().map(|entry| entry.fields.len());
    let mut lent = Lent::new(text, tried);
    for (length, n) in lengths(need, tried).into_iter().zip(tried..) {
        let mut out = Out::new(length, n);
        let should = import::write(&read, &mut out.should);
        let is = raw::import(lent.bytes(), out.lent.bytes_mut());
        let is = Imported {
            refusal: is.refusal,
            realtime: is.realtime,
            monotonic: is.monotonic,
            boot_low: is.boot_low,
            boot_high: is.boot_high,
            len: is.len,
        };
        if is != should {
            let why = read.as_ref().err();
            return Err(format!(
                "{is:?}, and not {should:?}, in {length} bytes; {why:?}"
            ));
        }
        out.compare()
            .map_err(|what| format!("{what}, of {length}"))?;
    }
    unchanged("text", &mut lent, text)?;
    Ok(read)
}

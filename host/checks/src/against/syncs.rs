//! The sync points of a list, put to the archive: the answer, every byte of the buffer for them, and
//! what is around both.
use super::lent::Lent;
use crate::random::Random;
use wrapper::{between_syncs, raw, sync_points};

/// Puts a list to the archive with a buffer of so many bytes that hold anything: it says how many
/// points there are, and as many as fit are at the front of the buffer. What differs comes back.
pub fn put(list: &[u8], points: &[usize], length: usize, tried: u64) -> Result<(), String> {
    let before = Random::new(tried).bytes(length);
    let mut should = before.clone();
    for (word, &point) in should.chunks_exact_mut(8).zip(points) {
        word.copy_from_slice(&(point as u64).to_le_bytes());
    }
    let mut stores = Lent::new(list, tried);
    let mut buffer = Lent::new(&before, tried / 3);
    let answer = raw::sync_points(stores.bytes(), buffer.bytes_mut());
    let is = buffer.after().ok_or("a byte around the points changed")?;
    if answer != points.len() as u64 || is != should {
        return Err(format!(
            "{answer} points, {is:?}, and not {points:?} in {length} bytes, for {} stores",
            list.len() / 16
        ));
    }
    match stores.after() == Some(list) {
        true => Ok(()),
        false => Err("a byte of the list or around it changed".to_string()),
    }
}

/// Puts it with buffers of several lengths: just long enough, longer, and too short. The wrapper's
/// points are the same, and its parts are the list.
pub fn put_all(list: &[u8], points: &[usize], tried: u64) -> Result<(), String> {
    let enough = 8 * points.len();
    put(list, points, enough, tried)?;
    put(list, points, enough + 1 + tried as usize % 17, tried + 1)?;
    put(list, points, tried as usize % (enough + 1), tried + 2)?;
    let ends = between_syncs(list).into_iter().scan(0, |end, part| {
        *end += part.len() / 16;
        Some(*end)
    });
    match sync_points(list) == points && ends.eq(points.iter().copied()) {
        true => Ok(()),
        false => Err("the wrapper has other points".to_string()),
    }
}

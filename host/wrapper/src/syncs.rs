//! Where a host syncs while it carries an append out.
use crate::raw;

/// The sync points of an append's list or a batch's, without bytes after its stores: numbers of stores,
/// rising, the last the number of all. Once the stores up to a point are on the disk, those up to the
/// next one may get there in any order.
///
/// A list that neither `plan` nor `plan_batch` wrote has points too, which mean nothing.
pub fn sync_points(list: &[u8]) -> Vec<usize> {
    // An append has at most six, and a batch five for each entry and one more.
    let mut points = vec![0; 8 * (5 * 32 + 1)];
    let count = 8 * raw::sync_points(list, &mut points) as usize;
    if count > points.len() {
        points.resize(count, 0);
        raw::sync_points(list, &mut points);
    }
    let words = points[..count].chunks_exact(8);
    let word = |bytes: &[u8]| u64::from_le_bytes(bytes.try_into().expect("8 bytes"));
    words.map(|bytes| word(bytes) as usize).collect()
}

/// The same list in parts, with a sync point at the end of each: a host carries a part out, syncs,
/// and goes on with the next one.
///
/// ```
/// use wrapper::{between_syncs, carry_out, new, stores, sync_points, Request};
///
/// let mut image = vec![0; 4_096];
/// new(&mut image, &[7; 64], 1, 1, true, 256)?;
/// let request = Request {
///     machine: &[7; 16],
///     boot: &[7; 16],
///     seqnum: 1,
///     realtime: 1_700_000_000_000_000,
///     monotonic: 50,
///     fields: b"\x0a\0\0\0PRIORITY=2",
/// };
/// let list = stores(&image, &request)?;
/// for part in between_syncs(&list) {
///     carry_out(&mut image, part, part.len() as u64 / 16)?;
///     // Here the image is synced.
/// }
/// assert!(wrapper::by_seqnum(&image, 1)?.is_some());
/// assert_eq!(sync_points(&list), [34, 39, 44, 51, 52, 53]);
/// # Ok::<(), Box<dyn std::error::Error>>(())
/// ```
pub fn between_syncs(list: &[u8]) -> Vec<&[u8]> {
    let mut start = 0;
    let part = |end: usize| {
        let part = &list[16 * start..16 * end];
        start = end;
        part
    };
    sync_points(list).into_iter().map(part).collect()
}

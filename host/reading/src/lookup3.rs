//! Bob Jenkins' `hashlittle2` of lookup3.c (May 2006, public domain), with both starting values 0.
//!
//! The names `a`, `b`, `c`, `rot`, `mix` and `final` are lookup3.c's, so that the two can be read
//! side by side (`final` is a reserved word here, hence `finish`).

/// Both result words as one number: the first (`pc`) in the high half, the second (`pb`) below.
#[inline]
pub fn hashlittle2(bytes: &[u8]) -> u64 {
    // lookup3.c adds the length as a 32-bit word, so the high half of a longer one falls away.
    let start = 0xdeadbeef_u32.wrapping_add(bytes.len() as u32);
    let (mut a, mut b, mut c) = (start, start, start);

    // A full block of 12 bytes at the end is the tail's, so the main loop needs more than that.
    let mut tail = bytes;
    while tail.len() > 12 {
        let (block, rest) = tail.split_at(12);
        a = a.wrapping_add(word(&block[0..4]));
        b = b.wrapping_add(word(&block[4..8]));
        c = c.wrapping_add(word(&block[8..12]));
        (a, b, c) = mix(a, b, c);
        tail = rest;
    }

    // The tail is empty only if there was nothing at all; lookup3.c then leaves without `final`.
    if !tail.is_empty() {
        let mut words = tail.chunks(4).map(word);
        a = a.wrapping_add(words.next().unwrap_or(0));
        b = b.wrapping_add(words.next().unwrap_or(0));
        c = c.wrapping_add(words.next().unwrap_or(0));
        (b, c) = finish(a, b, c);
    }
    u64::from(c) << 32 | u64::from(b)
}

/// Up to four bytes as a little-endian word. What is missing counts as zeros: lookup3.c adds just
/// the bytes that are there.
#[inline(always)]
fn word(bytes: &[u8]) -> u32 {
    match bytes.try_into() {
        Ok(full) => u32::from_le_bytes(full),
        Err(_) => bytes
            .iter()
            .rev()
            .fold(0, |word, &byte| word << 8 | u32::from(byte)),
    }
}

#[inline(always)]
fn rot(x: u32, k: u32) -> u32 {
    x.rotate_left(k)
}

#[inline(always)]
fn mix(mut a: u32, mut b: u32, mut c: u32) -> (u32, u32, u32) {
    a = a.wrapping_sub(c) ^ rot(c, 4);
    c = c.wrapping_add(b);
    b = b.wrapping_sub(a) ^ rot(a, 6);
    a = a.wrapping_add(c);
    c = c.wrapping_sub(b) ^ rot(b, 8);
    b = b.wrapping_add(a);
    a = a.wrapping_sub(c) ^ rot(c, 16);
    c = c.wrapping_add(b);
    b = b.wrapping_sub(a) ^ rot(a, 19);
    a = a.wrapping_add(c);
    c = c.wrapping_sub(b) ^ rot(b, 4);
    b = b.wrapping_add(a);
    (a, b, c)
}

/// `final`, which gives only the two words that are the result.
#[inline(always)]
fn finish(mut a: u32, mut b: u32, mut c: u32) -> (u32, u32) {
    c = (c ^ b).wrapping_sub(rot(b, 14));
    a = (a ^ c).wrapping_sub(rot(c, 11));
    b = (b ^ a).wrapping_sub(rot(a, 25));
    c = (c ^ b).wrapping_sub(rot(b, 16));
    a = (a ^ c).wrapping_sub(rot(c, 4));
    b = (b ^ a).wrapping_sub(rot(a, 14));
    c = (c ^ b).wrapping_sub(rot(b, 24));
    (b, c)
}

#[cfg(test)]
mod tests {
    use super::hashlittle2;

    /// The values that lookup3.c's own driver prints.
    #[test]
    fn published_values() {
        assert_eq!(hashlittle2(b""), 0xdeadbeef_deadbeef);
        assert_eq!(
            hashlittle2(b"Four score and seven years ago"),
            0x17770551_ce7226e6
        );
    }
}

//! Payloads of one hash.
use reading::lookup3::hashlittle2;

/// Twelve bytes whose lookup3 hash is 0, others for each number: the last steps of lookup3
/// backwards.
pub fn hashed_to_0(n: u32) -> Vec<u8> {
    fn back(x: &mut u32, y: u32, turn: u32) {
        *x = x.wrapping_add(y.rotate_left(turn)) ^ y;
    }
    let (mut a, mut b, mut c) = (n, 0, 0);
    back(&mut c, b, 24);
    back(&mut b, a, 14);
    back(&mut a, c, 4);
    back(&mut c, b, 16);
    back(&mut b, a, 25);
    back(&mut a, c, 11);
    back(&mut c, b, 14);
    let start = 0xdead_beef_u32.wrapping_add(12);
    let payload = [a, b, c]
        .map(|word| word.wrapping_sub(start).to_le_bytes())
        .concat();
    assert_eq!(hashlittle2(&payload), 0);
    payload
}

/// Two such payloads that an append takes: a name of one letter, and then a value.
pub fn of_one_hash() -> [Vec<u8>; 2] {
    let mut fitting = (0..)
        .map(hashed_to_0)
        .filter(|payload| payload[0].is_ascii_uppercase() && payload[1] == b'=');
    std::array::from_fn(|_| fitting.next().expect("there are some"))
}

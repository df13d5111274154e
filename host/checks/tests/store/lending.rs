//! An image lent to a call that writes it.
use checks::against::lent::Lent;

/// Calls with `image` amid other bytes, at an alignment that `tried` gives; those stay as
/// they are. Gives the image as it is after the call.
pub fn lent(image: &[u8], tried: u64, call: impl FnOnce(&mut [u8]) -> u64) -> (u64, Vec<u8>) {
    let mut lent = Lent::new(image, tried);
    let answer = call(lent.bytes_mut());
    let image = lent.after().expect("no byte around the image changed");
    (answer, image.to_vec())
}

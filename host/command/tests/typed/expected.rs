//! What an append is to do to a file, by the independent reading.
use reading::carry::{carry_out, Store};
use reading::plan;
use reading::request::{packed, Request};

/// The groups of stores of the append that `person::append` asks for, by the reading.
pub fn groups(image: &[u8], seqnum: u64, payloads: &[&[u8]]) -> Vec<Vec<Store>> {
    let request = Request {
        machine_id: [2; 16],
        boot_id: [5; 16],
        seqnum,
        realtime: 1_700_000_000_000_000 + seqnum,
        monotonic: 50 + seqnum,
        fields: &packed(payloads),
    };
    plan::groups(image, &request).expect("taken")
}

/// All of its stores as a list.
pub fn stores(image: &[u8], seqnum: u64, payloads: &[&[u8]]) -> Vec<u8> {
    let stores = groups(image, seqnum, payloads).concat();
    let mut list = vec![0; 16 * stores.len()];
    plan::write(&Ok(stores), &mut list);
    list
}

/// The image after it, and the number of its stores.
pub fn expected(image: &[u8], seqnum: u64, payloads: &[&[u8]]) -> (Vec<u8>, usize) {
    let (mut image, list) = (image.to_vec(), stores(image, seqnum, payloads));
    assert_eq!(carry_out(&mut image, &list, list.len() as u64 / 16), 0);
    (image, list.len() / 16)
}

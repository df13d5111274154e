//! Carrying out stores.
use super::image::le64;

/// "the lent store list (16 bytes a store: offset, value)"
#[derive(Clone, Copy, Debug, PartialEq, Eq)]
pub struct Store {
    pub offset: u64,
    pub value: u64,
}

/// The stores of a list; "a rest below 16 bytes is no store".
pub fn stores(list: &[u8]) -> Vec<Store> {
    list.chunks_exact(16)
        .map(|store| Store {
            offset: le64(store, 0),
            value: le64(store, 8),
        })
        .collect()
}

/// A list of these stores.
pub fn list(stores: &[Store]) -> Vec<u8> {
    let numbers = stores.iter().flat_map(|store| [store.offset, store.value]);
    numbers.flat_map(u64::to_le_bytes).collect()
}

/// "Carrying out the first k stores writes the image. Refusal 21, nothing written: k above the
/// number of whole stores in the list, or among those k an offset not a multiple of 8 or with
/// fewer than 8 bytes left."
pub fn carry_out(image: &mut [u8], list: &[u8], k: u64) -> u64 {
    let stores = stores(list);
    if k > stores.len() as u64 {
        return 21;
    }
    let stores = &stores[..k as usize];
    for store in stores {
        if store.offset % 8 != 0 || store.offset as u128 + 8 > image.len() as u128 {
            return 21;
        }
    }
    for store in stores {
        let at = store.offset as usize;
        image[at..at + 8].copy_from_slice(&store.value.to_le_bytes());
    }
    0
}

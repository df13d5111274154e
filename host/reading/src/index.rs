//! The hash tables' chains and the FIELDs' lists, of an image that passes refusals 1 to 8.
use super::image::{Image, Object};
use super::layout::{data, field, kind};

/// The chains of a table, one for each cell: the objects from the cell's head along next_hash.
pub fn chains(image: &Image, table: u8) -> Vec<Vec<Object>> {
    let table = image.of_kind(table)[0];
    let mut chains = Vec::new();
    for (head, _) in image.cells(&table) {
        let mut chain = Vec::new();
        let mut offset = head;
        while offset != 0 {
            let object = image.object_at(offset).expect("refusal 8 passed");
            chain.push(object);
            // next_hash stands at 24 of a DATA and of a FIELD.
            assert_eq!(data::NEXT_HASH_OFFSET, field::NEXT_HASH_OFFSET);
            offset = image.word(offset + data::NEXT_HASH_OFFSET);
        }
        chains.push(chain);
    }
    chains
}

/// "A cell is hash modulo the number of cells."
pub fn cell_of(chains: &[Vec<Object>], hash: u64) -> usize {
    (hash % chains.len() as u64) as usize
}

/// A FIELD's list: the DATA from head_data along next_field.
pub fn field_list(image: &Image, object: &Object) -> Vec<Object> {
    let mut list = Vec::new();
    let mut offset = image.word(object.offset + field::HEAD_DATA_OFFSET);
    while offset != 0 {
        list.push(image.object_at(offset).expect("refusal 8 passed"));
        offset = image.word(offset + data::NEXT_FIELD_OFFSET);
    }
    list
}

/// The object of some bytes on the chain of their cell: a DATA of a payload, a FIELD of a name.
pub fn on_chain(image: &Image, chains: &[Vec<Object>], bytes: &[u8]) -> Option<Object> {
    let cell = cell_of(chains, image.hash(bytes));
    chains[cell]
        .iter()
        .copied()
        .find(|object| image.payload(object) == bytes)
}

/// Both tables' chains.
pub struct Index {
    pub data: Vec<Vec<Object>>,
    pub fields: Vec<Vec<Object>>,
}

impl Index {
    pub fn of(image: &Image) -> Index {
        Index {
            data: chains(image, kind::DATA_HASH_TABLE),
            fields: chains(image, kind::FIELD_HASH_TABLE),
        }
    }
}

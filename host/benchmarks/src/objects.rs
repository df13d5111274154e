//! Writes the objects of a journal file, one after the other.
use checks::generator::frame::set;
use reading::image::le64;
use reading::layout::{header, kind};
use reading::lookup3::hashlittle2;
use reading::new_file::{new_file, NewFile};
use reading::siphash::siphash24;

/// An image, and where its objects end.
pub struct Objects {
    pub image: Vec<u8>,
    pub end: u64,
    keyed: bool,
}

const FILE_ID: [u8; 16] = [7; 16];

impl Objects {
    pub fn new(length: usize, keyed: bool, data_cells: u64, field_cells: u64) -> Objects {
        let mut image = vec![0; length];
        let new = NewFile {
            data_cells,
            field_cells,
            keyed: u64::from(keyed),
            header_size: 256,
            file_id: FILE_ID,
            machine_id: [2; 16],
            boot_id: [3; 16],
            seqnum_id: [4; 16],
        };
        assert_eq!(new_file(&mut image, &new), 0);
        let tail = le64(&image, header::TAIL_OBJECT_OFFSET);
        let end = tail + le64(&image, tail + 8);
        Objects { image, end, keyed }
    }

    pub fn hash(&self, bytes: &[u8]) -> u64 {
        match self.keyed {
            true => siphash24(&FILE_ID, bytes),
            false => hashlittle2(bytes),
        }
    }

    pub fn room(&self) -> u64 {
        self.image.len() as u64 - self.end
    }

    /// Counts one more in the header.
    pub fn more(&mut self, at: u64) {
        let value = le64(&self.image, at) + 1;
        set(&mut self.image, at, value);
    }

    /// A new object, which is the tail object from now on.
    pub fn object(&mut self, kind: u8, size: u64) -> u64 {
        let at = self.end;
        self.end += (size + 7) / 8 * 8;
        self.image[at as usize] = kind;
        set(&mut self.image, at + 8, size);
        set(&mut self.image, header::TAIL_OBJECT_OFFSET, at);
        self.more(header::N_OBJECTS);
        match kind {
            kind::DATA => self.more(header::N_DATA),
            kind::FIELD => self.more(header::N_FIELDS),
            kind::ENTRY_ARRAY => self.more(header::N_ENTRY_ARRAYS),
            _ => {}
        }
        at
    }

    /// A new DATA or FIELD, with its hash and bytes.
    pub fn hashed(&mut self, kind: u8, body: u64, bytes: &[u8]) -> u64 {
        let at = self.object(kind, body + bytes.len() as u64);
        let hash = self.hash(bytes);
        set(&mut self.image, at + 16, hash);
        let start = (at + body) as usize;
        self.image[start..start + bytes.len()].copy_from_slice(bytes);
        at
    }

    /// Puts a DATA or FIELD last in its cell of the table whose offset the header has at a place.
    pub fn chain(&mut self, table: u64, at: u64) {
        let start = le64(&self.image, table);
        let cells = le64(&self.image, table + 8) / 16;
        let cell = start + 16 * (le64(&self.image, at + 16) % cells);
        let tail = le64(&self.image, cell + 8);
        match tail {
            0 => set(&mut self.image, cell, at),
            _ => set(&mut self.image, tail + 24, at),
        }
        set(&mut self.image, cell + 8, at);
    }

    /// A new ENTRY with these DATA, rising.
    pub fn entry(&mut self, items: &[u64], facts: [u64; 3]) -> u64 {
        let at = self.object(kind::ENTRY, 64 + 16 * items.len() as u64);
        for (i, fact) in facts.into_iter().enumerate() {
            set(&mut self.image, at + 16 + 8 * i as u64, fact);
        }
        self.image[at as usize + 40..at as usize + 56].fill(3);
        let mut xor_hash = 0;
        for (i, &data) in items.iter().enumerate() {
            let hash = le64(&self.image, data + 16);
            set(&mut self.image, at + 64 + 16 * i as u64, data);
            set(&mut self.image, at + 72 + 16 * i as u64, hash);
            let end = data + le64(&self.image, data + 8);
            xor_hash ^= match self.keyed {
                true => hashlittle2(&self.image[data as usize + 64..end as usize]),
                false => hash,
            };
        }
        set(&mut self.image, at + 56, xor_hash);
        at
    }
}

//! The worked examples of the rules: files without entries.
use checks::generator::worked::{made, one_cell_each};
use reading::image::{le64, Image};
use reading::layout::{header, kind};
use reading::listing::listing;
use reading::lookup3::hashlittle2;
use reading::new_file::{new_file, NewFile};
use reading::refusal::refusal;

/// The objects of an image, and their types.
pub fn objects(image: &[u8]) -> Vec<(u64, u8)> {
    Image::walked(image)
        .objects
        .iter()
        .map(|object| (object.offset, object.kind))
        .collect()
}

#[test]
fn nothing_and_no_journal() {
    assert_eq!(hashlittle2(b""), 0xdeadbeefdeadbeef);
    assert_eq!(refusal(&[0; 255]), 1);
    assert_eq!(refusal(&[0; 256]), 3);
    assert_eq!(listing(&[0; 255]), "refused 1\n");
    assert_eq!(listing(&[0; 65_537]), "refused 2\n");
    assert_eq!(listing(&[0; 65_536]), "refused 3\n");
}

#[test]
fn a_new_file() {
    for keyed in [0, 1] {
        let image = made(4096, keyed);
        assert_eq!(refusal(&image), 0);
        assert_eq!(
            objects(&image),
            [(256, kind::DATA_HASH_TABLE), (288, kind::FIELD_HASH_TABLE)]
        );
        assert_eq!(le64(&image, header::DATA_HASH_TABLE_OFFSET), 272);
        assert_eq!(le64(&image, header::DATA_HASH_TABLE_SIZE), 16);
        assert_eq!(le64(&image, header::FIELD_HASH_TABLE_OFFSET), 304);
        assert_eq!(le64(&image, header::FIELD_HASH_TABLE_SIZE), 16);
        assert_eq!(le64(&image, header::ARENA_SIZE), 3840);
        assert_eq!(le64(&image, header::TAIL_OBJECT_OFFSET), 288);
        assert_eq!(le64(&image, header::N_OBJECTS), 2);
        assert_eq!(
            listing(&image),
            "seqnum realtime monotonic fields\nentries 0\n"
        );
    }
}

#[test]
fn a_new_file_of_320_fits_and_312_is_20() {
    assert_eq!(refusal(&made(320, 0)), 0);
    let refused = |length: usize, change: &dyn Fn(&mut NewFile)| {
        let mut new = one_cell_each(0);
        change(&mut new);
        let mut image = vec![0xaa; length];
        assert_eq!(new_file(&mut image, &new), 20);
        assert!(image.iter().all(|&byte| byte == 0xaa));
    };
    for length in [0, 255, 256, 312, 319, 321, 4095, 8_388_616] {
        refused(length, &|_| ());
    }
    refused(4096, &|new| new.data_cells = 0);
    refused(4096, &|new| new.field_cells = 0);
    refused(4096, &|new| new.keyed = 2);
    refused(4096, &|new| new.header_size = 264);
    refused(328, &|new| new.header_size = 272);
    refused(4096, &|new| new.data_cells = u64::MAX / 16 + 2);
    refused(8_388_608, &|new| new.data_cells = 65_537);
    refused(8_388_608, &|new| new.field_cells = 1_025);
    let mut image = vec![0xaa; 8_388_608];
    let new = NewFile {
        data_cells: 65_536,
        field_cells: 1_024,
        ..one_cell_each(1)
    };
    assert_eq!(new_file(&mut image, &new), 0);
    assert_eq!(refusal(&image), 0);
}

//! `new`.
use crate::cut::preloaded;
use crate::person::{
    asked, bytes, checked, file, folder, program, said, typed, Said, BOOT, MACHINE,
};
use reading::image::id;
use reading::layout::{header, MOST_BYTES};
use reading::new_file::{new_file, NewFile};
use std::fs::{metadata, read_dir};
use std::os::unix::fs::MetadataExt;
use std::path::Path;
use std::process::Command;

/// The file is the one that the rules describe, with the ids that stand in it.
fn is_new(path: &Path, length: u64, cells: [u64; 2], keyed: u64, header_size: u64) {
    let image = bytes(path);
    let [data_cells, field_cells] = cells;
    let new = NewFile {
        data_cells,
        field_cells,
        keyed,
        header_size,
        file_id: id(&image, header::FILE_ID),
        machine_id: id(&image, header::MACHINE_ID),
        boot_id: id(&image, header::BOOT_ID),
        seqnum_id: id(&image, header::SEQNUM_ID),
    };
    let mut expected = vec![0xee; length as usize];
    assert_eq!(new_file(&mut expected, &new), 0);
    assert!(image == expected);
    assert_ne!(new.file_id, [0; 16]);
    assert_ne!(new.seqnum_id, [0; 16]);
    assert_ne!(new.file_id, new.seqnum_id);
    // It has all its blocks.
    assert!(metadata(path).expect("it is there").blocks() * 512 >= length);
}

#[test]
fn as_chosen_here() {
    let folder = folder("new");
    let (one, two) = (folder.join("one.journal"), folder.join("two.journal"));
    let said = asked("new", &one).done();
    let start = "made, 8388608 bytes, 8192 data cells, 512 field cells, keyed, file id ";
    let shown = said.strip_prefix(start).expect("what was made");
    is_new(&one, MOST_BYTES, [8_192, 512], 1, 256);
    assert_eq!(checked(&one), "opens, 0 entries\n");

    let ids = |path: &Path| {
        let image = bytes(path);
        [
            header::FILE_ID,
            header::MACHINE_ID,
            header::BOOT_ID,
            header::SEQNUM_ID,
        ]
        .map(|at| id(&image, at).map(|byte| format!("{byte:02x}")).concat())
    };
    let [file_id, machine, boot, seqnum_id] = ids(&one);
    assert_eq!(shown, file_id.clone() + "\n");
    let system = |path: &str| std::fs::read_to_string(path).expect("the system has an id");
    assert_eq!(machine + "\n", system("/etc/machine-id"));
    let now = system("/proc/sys/kernel/random/boot_id").replace('-', "");
    assert_eq!(boot + "\n", now);

    asked("new", &two).done();
    let [other_file_id, _, _, other_seqnum_id] = ids(&two);
    assert_ne!(file_id, other_file_id);
    assert_ne!(seqnum_id, other_seqnum_id);
}

#[test]
fn as_asked_for() {
    let folder = folder("new-asked");
    let path = folder.join("small.journal");
    let words = [
        "--unkeyed",
        "--size=320",
        "--data-cells=1",
        "--field-cells=1",
        "--machine",
        MACHINE,
        "--boot",
        BOOT,
    ];
    let said = typed("new", &path, &words).done();
    assert!(said.starts_with("made, 320 bytes, 1 data cells, 1 field cells, unkeyed, "));
    is_new(&path, 320, [1, 1], 0, 256);
    let image = bytes(&path);
    assert_eq!(id(&image, header::MACHINE_ID), [2; 16]);
    assert_eq!(id(&image, header::BOOT_ID), [5; 16]);

    for (size, cells) in [(336, [1, 1]), (65_536, [64, 4]), (1 << 20, [1_024, 64])] {
        for header_size in [256, 272] {
            let path = folder.join(format!("{size}-{header_size}.journal"));
            let words = [("--size", size), ("--header-size", header_size)];
            let words = words.map(|(name, value)| format!("{name}={value}"));
            typed("new", &path, &words).done();
            is_new(&path, size, cells, 1, header_size);
        }
    }
}

#[test]
fn a_file_that_is_there_stays() {
    let folder = folder("new-there");
    let path = file(&folder, "there.journal", b"some bytes");
    let words = asked("new", &path).failed_with(&path);
    assert_eq!(words, "is there already, and is not overwritten");
    assert_eq!(bytes(&path), b"some bytes");
    let link = folder.join("link.journal");
    std::os::unix::fs::symlink(folder.join("missing"), &link).expect("a link");
    let words = asked("new", &link).failed_with(&link);
    assert_eq!(words, "is there already, and is not overwritten");
    assert!(!folder.join("missing").exists());
}

/// Where there is no room, nothing is left.
#[test]
fn no_room() {
    let folder = folder("new-no-room");
    let path = folder.join("new.journal");
    let limited = Command::new("sh")
        .args(["-c", "ulimit -f 64; exec \"$0\" new \"$1\""])
        .arg(env!("CARGO_BIN_EXE_journal"))
        .arg(&path)
        .output();
    let words = Said::from(limited.expect("sh is there")).failed_with(&path);
    assert_eq!(words, "longer than files may be here (ulimit -f)");

    let full = said(preloaded(&mut program(), "FULL", 1).arg("new").arg(&path));
    assert_eq!(full.failed_with(&path), "no room on the disk");
    assert_eq!(read_dir(&folder).expect("it is there").count(), 0);

    let deeper = folder.join("missing/new.journal");
    let words = asked("new", &deeper).failed_with(&deeper);
    assert_eq!(words, "there is no such file or folder");
}

//! `why`: the facts on a file that is refused, and on one that is not.
use crate::in_full::{everyone, facts};
use crate::person::{append, asked, bytes, file, folder, made, program, said, typed};
use crate::redo_met::{begun, put};
use crate::tray::{beside, redo_list};
use checks::corpus::{self, FILES};
use checks::generator::frame::set;
use checks::generator::good::good;
use checks::generator::worked::two_appends;
use checks::random::Random;
use reading::layout::{data, header};
use reading::refusal::refusal;
use reading::siphash::siphash24;
use std::fs::File;
use std::io::{Seek, SeekFrom, Write};
use std::sync::atomic::{AtomicBool, Ordering};

/// Of a file that opens there is nothing to say but that.
#[test]
fn good_files() {
    for (name, _) in FILES {
        assert_eq!(facts(&corpus::path(name)), "refusal 0\n", "{name}");
    }
    let folder = folder("why-good");
    for seed in 0..20 {
        let image = good(&mut Random::new(seed + 300)).image;
        let path = file(&folder, "good.journal", &image);
        assert_eq!(refusal(&image), 0);
        assert_eq!(facts(&path), "refusal 0\n");
        let json = typed("why", &path, &["-o", "json"]).done();
        assert_eq!(json, "{\"refusal\":\"0\"}\n");
        assert!(bytes(&path) == image);
    }
    // 12 to 14 and 25 keep a file from appends, and not from being read.
    let path = made(&folder, "one.journal", "4096");
    append(&path, 1, &["A=1"]).done();
    let mut image = bytes(&path);
    image[header::STATE as usize] = 1;
    assert_eq!(facts(&file(&folder, "cut.journal", &image)), "refusal 0\n");
}

#[test]
fn word_for_word() {
    let folder = folder("why-facts");
    let mut image = two_appends(1);
    image[320 + 64 + 13] = b'3';
    let path = file(&folder, "changed.journal", &image);
    let rule = wrapper::open(&image).expect_err("it is changed").row();
    let key = [1; 16];
    let [stored, right] = ["lot 12 due", "lot 13 due"]
        .map(|text| siphash24(&key, format!("MESSAGE={text}").as_bytes()));
    let expected = format!(
        "refusal 11\nrule {rule}\nplace 320\nobject DATA\nstored {stored:016x}\nright {right:016x}\n"
    );
    assert_eq!(facts(&path), expected);
    let json = format!(
        "{{\"refusal\":\"11\",\"rule\":\"{rule}\",\"place\":\"320\",\"object\":\"DATA\",\
         \"stored\":\"{stored:016x}\",\"right\":\"{right:016x}\"}}\n"
    );
    for words in [&["-o", "json"][..], &["-ojson"]] {
        assert_eq!(typed("why", &path, words).done(), json);
    }
    // The digits are sixteen also where the first ones are 0.
    let mut image = two_appends(1);
    set(&mut image, 456 + data::HASH, 7);
    let path = file(&folder, "hash.journal", &image);
    assert!(facts(&path).contains("\nplace 456\nobject DATA\nstored 0000000000000007\nright "));

    let mut image = two_appends(1);
    set(&mut image, header::N_ENTRIES, 3);
    let rule = wrapper::open(&image).expect_err("it is changed").row();
    let path = file(&folder, "counted.journal", &image);
    assert_eq!(
        facts(&path),
        format!("refusal 9\nrule {rule}\nposition 2\n")
    );
    let json = format!("{{\"refusal\":\"9\",\"rule\":\"{rule}\",\"position\":\"2\"}}\n");
    assert_eq!(typed("why", &path, &["-o", "json"]).done(), json);

    let path = file(&folder, "empty.journal", b"");
    let expected = "refusal 1\nrule fewer than 256 bytes\nplace 0\nobject header\n";
    assert_eq!(facts(&path), expected);
}

/// What keeps it from an answer fails as with every other command.
#[test]
fn no_answer() {
    let folder = folder("why-none");
    let missing = folder.join("missing.journal");
    let words = asked("why", &missing).failed_with(&missing);
    assert_eq!(words, "there is no such file or folder");
    assert_eq!(asked("why", &folder).failed_with(&folder), "is a folder");
    let path = made(&folder, "one.journal", "4096");
    let other = File::options().read(true).write(true).open(&path);
    let other = other.expect("it is there");
    other.lock().expect("the lock is free");
    let words = asked("why", &path).failed_with(&path);
    assert_eq!(words, "another program appends to it");
    other.unlock().expect("it was held");
    assert_eq!(facts(&path), "refusal 0\n");
    let line = said(program().args(["--plain", "why"]).arg(&path)).failed(2);
    assert!(line.starts_with("--plain goes with "), "{line}");
}

/// A batch that was cut off and has its redo list: the facts are those of the finished file.
#[test]
fn beside_a_redo_list() {
    let (path, before, planned) = begun("why-redo");
    // Of all stores only the last commit store is there.
    let mut image = before.clone();
    set(&mut image, header::N_ENTRIES, 9);
    put(&path, &image, &redo_list(&before, &planned.list));
    assert_eq!(facts(&path), "refusal 0\n");
    std::fs::remove_file(beside(&path)).expect("it is there");
    assert_eq!(everyone(&path).place, "entry number 4 of the file");
    assert!(facts(&path).ends_with("\nposition 3\n"));
}

/// A file that another program changes all the time: what is said is of the bytes that were read, and
/// not of those that are there a moment later.
#[test]
fn a_file_that_changes() {
    let folder = folder("why-changes");
    let changed = |flags: u8| {
        let mut image = two_appends(1);
        image[header::INCOMPATIBLE_FLAGS as usize] |= flags;
        image
    };
    let images = [1, 8].map(changed);
    let path = file(&folder, "one.journal", &images[0]);
    let sentences = [0, 1].map(|n: usize| {
        let path = file(&folder, "one.journal", &images[n]);
        everyone(&path).sentence
    });
    assert!(sentences[0].contains(" xz,") && sentences[1].contains(" zstd,"));
    let ended = AtomicBool::new(false);
    std::thread::scope(|scope| {
        scope.spawn(|| {
            let mut other = File::options().write(true).open(&path).expect("a file");
            let at = SeekFrom::Start(header::INCOMPATIBLE_FLAGS);
            let mut turn = 0;
            while !ended.load(Ordering::Relaxed) {
                turn = 1 - turn;
                let flags = images[turn][header::INCOMPATIBLE_FLAGS as usize];
                other.seek(at).expect("a place");
                other.write_all(&[flags]).expect("a byte");
            }
        });
        for _ in 0..100 {
            let line = asked("list", &path).failed_with(&path);
            let (sentence, _) = line.split_once(" (refusal 4: ").expect("a rule");
            assert!(sentences.iter().any(|it| it == sentence), "{line}");
        }
        ended.store(true, Ordering::Relaxed);
    });
}

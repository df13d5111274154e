//! Every refusal by its number, and a file that stays as it was.
use crate::in_full::everyone;
use crate::person::{append, bytes, file, folder, made, options, typed};
use checks::corpus::{self, FILES};
use checks::generator::frame::set;
use checks::generator::mutation::targeted;
use checks::random::Random;
use reading::image::le64;
use reading::layout::header;
use reading::refusal::{refusal, CLAUSES};

/// 1 to 11: a damage for each clause.
#[test]
fn damaged_files() {
    let folder = folder("damaged");
    let mut met = [0; 12];
    for &clause in CLAUSES {
        let image = targeted(clause, &mut Random::new(clause.number));
        let path = file(&folder, "damaged.journal", &image);
        let number = refusal(&image);
        if number == 0 {
            continue;
        }
        assert_eq!(everyone(&path).number, number, "{clause:?}");
        met[number as usize] += 1;
    }
    assert!(met[1..].iter().all(|&n| n > 0), "{met:?}");
}

/// Of files of journald: one that may be compressed, and what an append to the others is refused by.
#[test]
fn real_files() {
    let folder = folder("real");
    let compressed = file(&folder, "compressed", &corpus::compressed());
    assert_eq!(everyone(&compressed).number, 4);
    for (name, _) in FILES {
        let path = file(&folder, name, &corpus::image(name));
        let before = bytes(&path);
        let refused = append(&path, 1_000_000, &["A=1"]).refused(&path);
        let expected = match name {
            "sealed-bullseye-c0-system" => 12,
            "bookworm-k1-c0-system" => 25,
            "bullseye-k0-c0-system" | "trixie-k1-c0-system" | "trixie-k1-c1-system" => 15,
            _ => 13,
        };
        assert_eq!(refused, expected, "{name}");
        assert_eq!(bytes(&path), before);
    }
}

/// 14 to 18, and what is said of the file itself.
#[test]
fn appends() {
    let folder = folder("refused-appends");
    let path = made(&folder, "one.journal", "4096");
    append(&path, 5, &["A=1"]).done();
    let before = bytes(&path);

    let mut untidy = before.clone();
    set(
        &mut untidy,
        header::N_OBJECTS,
        le64(&before, header::N_OBJECTS) + 1,
    );
    let other = file(&folder, "untidy.journal", &untidy);
    assert_eq!(append(&other, 6, &["A=1"]).refused(&other), 14);
    assert_eq!(bytes(&other), untidy);

    let words = ["--machine", "ffffffffffffffffffffffffffffffff", "A=1"];
    assert_eq!(typed("append", &path, &words).refused(&path), 15);

    let long = format!("A={}", "x".repeat(4_095));
    let many: Vec<String> = (0..65).map(|n| format!("A={n}")).collect();
    let many: Vec<&str> = many.iter().map(String::as_str).collect();
    let wrong = [
        &["a=1"][..],
        &["A"],
        &["=1"],
        &["1A=1"],
        &["A=1", ""],
        &[&long],
        &many,
    ];
    for fields in wrong {
        assert_eq!(append(&path, 6, fields).refused(&path), 16, "{fields:?}");
    }

    assert_eq!(append(&path, 0, &["A=1"]).refused(&path), 17);
    assert_eq!(append(&path, 5, &["A=1"]).refused(&path), 17);
    let mut words = options(6);
    let place = words.iter().position(|word| word == "--monotonic");
    words[place.expect("an option") + 1] = "1".to_string();
    words.push("A=1".to_string());
    assert_eq!(typed("append", &path, &words).refused(&path), 17);

    assert_eq!(append(&path, 6, &[&long[..4_000]]).refused(&path), 18);
    assert_eq!(bytes(&path), before);
}

/// 20, and no file.
#[test]
fn new_files() {
    let folder = folder("refused-new");
    let path = folder.join("new.journal");
    let wrong = [
        &["--size", "312", "--data-cells", "1", "--field-cells", "1"][..],
        &["--size", "0"],
        &["--size", "65537"],
        &["--size", "8388616"],
        &["--size", "18446744073709551615"],
        &["--data-cells", "0"],
        &["--data-cells", "65537"],
        &["--field-cells", "0"],
        &["--field-cells", "1025"],
        &["--header-size", "0"],
        &["--header-size", "264"],
        &["--header-size", "280"],
        &["--header-size", "18446744073709551615"],
    ];
    for words in wrong {
        assert_eq!(typed("new", &path, words).refused(&path), 20, "{words:?}");
        assert!(!path.exists());
    }
}

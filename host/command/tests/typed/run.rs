//! `./run` in the repository's root, from another folder.
use crate::person::{folder, made, Said};
use std::path::Path;
use std::process::Command;

#[test]
fn from_another_folder() {
    let folder = folder("run");
    made(&folder, "one.journal", "4096");
    let run = |words: &[&str]| {
        let script = Path::new(env!("CARGO_MANIFEST_DIR")).join("../../run");
        let output = Command::new(script)
            .args(words)
            .current_dir(&folder)
            .output();
        Said::from(output.expect("it runs"))
    };
    let checked = run(&["check", "one.journal"]).done();
    assert!(checked.starts_with("opens, 0 entries\n"), "{checked}");
    let missing = run(&["check", "two.journal"]).failed(1);
    assert_eq!(missing, "two.journal: there is no such file or folder");
    assert!(run(&["check"])
        .failed(2)
        .starts_with("the command is check FILE"));
}

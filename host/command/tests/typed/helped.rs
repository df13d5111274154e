//! Help, of all and of each command, and the version.
use crate::person::{folder, made, program, said};

const COMMANDS: [&str; 14] = [
    "list", "show", "find", "newest", "values", "export", "check", "why", "foreign", "room", "new",
    "append", "import", "copy",
];

/// A command with the first of what is typed after it.
fn start(command: &str) -> String {
    match command {
        "room" => "room --entries N NAME=BYTES".to_string(),
        _ => format!("{command} FILE"),
    }
}

fn text(words: &[&str]) -> String {
    let text = said(program().args(words)).done();
    assert!(text.lines().count() <= 24, "{}", text.lines().count());
    for line in text.lines() {
        assert!(line.chars().count() <= 80, "{line}");
    }
    text
}

#[test]
fn a_screen_of_all() {
    let all = text(&["--help"]);
    for command in COMMANDS {
        let start = format!("\n  {}", start(command));
        assert!(all.contains(&start), "{command}");
    }
    assert!(all.contains("\n  append --batch FILE "));
    // Wall times may fall, so "the first" is no time but a place.
    assert!(all.contains("--time T             the first in order at this wall time"));
    for words in [
        &["help"][..],
        &["-h"],
        &["help", "--help"],
        &["--help", "list"],
    ] {
        assert_eq!(text(words), all, "{words:?}");
    }
}

/// Each in three ways, also with other words, and without a file being looked for.
#[test]
fn of_each_command() {
    for command in COMMANDS {
        let own = text(&["help", command]);
        assert!(own.starts_with(&start(command)), "{own}");
        assert_eq!(text(&[command, "--help"]), own);
        assert_eq!(text(&[command, "-h"]), own);
        assert_eq!(
            text(&[command, "/no/such/file", "--help", "--nothing"]),
            own
        );
    }
    let line = said(program().args(["help", "remove"])).failed(2);
    assert!(line.starts_with("no command remove"), "{line}");
    let line = said(program().args(["remove", "--help"])).failed(2);
    assert!(line.starts_with("no command remove"), "{line}");
}

/// Every option that a command takes is in its help.
#[test]
fn options() {
    let path = made(&folder("help-options"), "one.journal", "4096");
    let all = [
        "--seqnum",
        "--time",
        "--field",
        "--since",
        "--until",
        "-n",
        "--reverse",
        "--fields",
        "-o",
        "--no-header",
        "--entries",
        "--size",
        "--data-cells",
        "--field-cells",
        "--unkeyed",
        "--header-size",
        "--machine",
        "--boot",
        "--monotonic",
        "--seqnum-id",
        "--wait",
        "--from",
        "--sync",
    ];
    let alone = ["--anyway", "--quiet", "--batch"];
    let mut taken = Vec::new();
    for command in COMMANDS {
        let own = text(&["help", command]);
        for option in all.into_iter().chain(alone) {
            // Files too many, or none, so that nothing is done.
            let mut typed = program();
            typed.arg(command);
            if !alone.contains(&option) {
                typed.args([&path, &path, &path, &path]);
            }
            let line = said(typed.arg(option)).failed(2);
            if !line.starts_with("no option ") {
                let words = own.split([' ', ',', '\n', ':']);
                assert!(
                    words.into_iter().any(|word| word == option),
                    "{command} {option}"
                );
                taken.push((command, option));
            }
        }
    }
    assert_eq!(
        taken.len(),
        7 + 10 + 7 + 1 + 2 + 5 + 9 + 11 + 6 + 2,
        "{taken:?}"
    );
}

/// After `--` it is a name.
#[test]
fn a_file_named_like_it() {
    let folder = folder("help-name");
    let new = ["new", "--size", "4096", "--", "-h"];
    let made = said(program().args(new).current_dir(&folder)).done();
    assert!(made.starts_with("made, "), "{made}");
    assert!(folder.join("-h").exists());
}

#[test]
fn version() {
    let expected = format!("journal {}\n", env!("CARGO_PKG_VERSION"));
    for word in ["--version", "-V"] {
        assert_eq!(said(program().arg(word)).done(), expected);
    }
}

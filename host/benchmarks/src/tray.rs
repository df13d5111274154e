//! A tray of results appended by the program of `./run`: one by one, and as a batch in each of its ways.
//! What it takes is syncs, so the file stands beside the program and not in memory.
use std::fs::{create_dir, remove_dir_all, remove_file, write};
use std::path::{Path, PathBuf};
use std::process::Command;
use std::time::Instant;

const RESULTS: usize = 30;
const RUNS: usize = 5;

pub fn tray() {
    let own = std::env::current_exe().expect("this program");
    let program = own.with_file_name("journal");
    if !program.exists() {
        println!("a tray is measured after `cargo build --offline --release -p command`");
        return;
    }
    let folder = own.with_file_name(format!("bench-{}-tray", std::process::id()));
    create_dir(&folder).expect("a folder");
    let tray = Tray { program, folder };
    let lines: String = (0..RESULTS).map(|n| fields(n).join("\t") + "\n").collect();
    write(tray.folder.join("lines"), lines).expect("a file");
    println!(
        "{RESULTS} results of four fields, a file of 8 MiB in {}",
        own.parent().unwrap_or(Path::new(".")).display()
    );
    println!("{:<24} {:>8} {:>10}", "way", "syncs", "ms");
    tray.row("30 appends", |tray| {
        let each = (0..RESULTS).map(|n| {
            let fields = fields(n);
            tray.said(&Vec::from_iter(
                ["append", "one.journal"]
                    .into_iter()
                    .chain(fields.iter().map(String::as_str)),
            ))
        });
        each.sum()
    });
    for way in ["places", "redo", "end"] {
        tray.row(&format!("--batch --sync {way}"), |tray| {
            tray.said(&[
                "append",
                "--batch",
                "one.journal",
                "--from",
                "lines",
                "--sync",
                way,
            ])
        });
    }
    remove_dir_all(&tray.folder).expect("the folder is there");
}

/// The fields of a result: a lot, and what became of it.
fn fields(n: usize) -> [String; 4] {
    let state = ["sprouted", "dead", "hard"][n % 3];
    [
        format!("MESSAGE=lot {n} {state}"),
        format!("LOT={n}"),
        format!("STATE={state}"),
        "TRAY=7".to_string(),
    ]
}

struct Tray {
    program: PathBuf,
    folder: PathBuf,
}

impl Tray {
    /// The syncs, as the program says them, and the least time of some runs, each to a new file.
    fn row(&self, label: &str, append: impl Fn(&Tray) -> usize) {
        let (mut syncs, mut least) = (0, f64::INFINITY);
        for _ in 0..RUNS {
            self.run(&["new", "one.journal", "--quiet"]);
            let start = Instant::now();
            syncs = append(self);
            least = least.min(start.elapsed().as_secs_f64() * 1e3);
            remove_file(self.folder.join("one.journal")).expect("it was made");
        }
        println!("{label:<24} {syncs:>8} {least:>10.1}");
    }

    /// The number of syncs at the end of what it said.
    fn said(&self, words: &[&str]) -> usize {
        let text = self.run(words);
        let syncs = text.trim_end().rsplit(", ").next().expect("words");
        let number = syncs.split(' ').next().expect("a number");
        number.parse().expect("a number")
    }

    fn run(&self, words: &[&str]) -> String {
        let mut command = Command::new(&self.program);
        let output = command.args(words).current_dir(&self.folder).output();
        let output = output.expect("it runs");
        assert!(output.status.success(), "{words:?}");
        String::from_utf8(output.stdout).expect("text")
    }
}

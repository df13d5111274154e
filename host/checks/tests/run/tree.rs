//! A small tree with the script, and the tools that it is given.
use std::fs::{self, File};
use std::os::unix::fs::{symlink, PermissionsExt};
use std::path::{Path, PathBuf};
use std::process::Command;
use std::time::{Duration, SystemTime, UNIX_EPOCH};

pub const ARCHIVE: &str = "target/staticlib/libjournal.a";
pub const PROGRAM: &str = "host/target/release/journal";
pub const PROVED: [&str; 2] = ["crates/journal/src/lib.rt", "crates.txt"];
pub const LINKED: [&str; 4] = [
    "host/Cargo.toml",
    "host/Cargo.lock",
    "host/wrapper/src/lib.rs",
    "host/command/src/main.rs",
];

pub const OLD_PROGRAM: &str = "#!/bin/sh\necho \"old: $*\"\n";
/// Called in the crate's folder; what it makes is copied to where the archive is linked from.
const RT: &str = r#"#!/bin/sh
echo rt "$@" >>../../called
mkdir -p out
echo new >out/libjournal.a
"#;
/// Says something, and does as it is told: fails, leaves the program as it is, or has a source edited
/// while it works.
const CARGO: &str = r#"#!/bin/sh
echo cargo "$1" >>called
echo 'words of cargo'
case "$TOLD" in
fail) exit 101 ;;
leave) exit 0 ;;
edit) sleep 0.1; touch host/wrapper/src/lib.rs; sleep 0.1 ;;
esac
echo '#!/bin/sh
echo "new: $*"' >host/target/release/journal
chmod +x host/target/release/journal
"#;
/// What the script needs besides.
const TOOLS: [&str; 12] = [
    "bash", "cat", "chmod", "cp", "dirname", "find", "mkdir", "mktemp", "readlink", "rm", "sleep",
    "touch",
];

/// Where it is.
pub struct Tree(pub PathBuf);

impl Tree {
    /// A tree whose sources are of an hour, the archive of the next one and the program of the one
    /// after that.
    pub fn new(name: &str) -> Tree {
        let tree = Tree(Path::new(env!("CARGO_TARGET_TMPDIR")).join(format!("run-{name}")));
        if tree.0.exists() {
            fs::remove_dir_all(&tree.0).expect("the folder of an earlier run");
        }
        for path in PROVED
            .iter()
            .chain(&LINKED)
            .chain(&[ARCHIVE, "host/checks/lib.rs"])
        {
            tree.write(path, "");
        }
        tree.write(PROGRAM, OLD_PROGRAM);
        let script = include_str!("../../../../run");
        tree.write("run", script);
        tree.write("tools/archive", include_str!("../../../../tools/archive"));
        tree.write("bin/rt", RT);
        tree.write("bin/cargo", CARGO);
        for tool in TOOLS {
            let paths = std::env::var_os("PATH").expect("a PATH");
            let mut paths = std::env::split_paths(&paths).map(|folder| folder.join(tool));
            let path = paths.find(|path| path.exists()).expect("the tool is here");
            symlink(path, tree.0.join("bin").join(tool)).expect("a link");
        }
        for path in tree.paths() {
            tree.date(&path, 1);
        }
        tree.date(ARCHIVE, 2);
        tree.date(PROGRAM, 3);
        tree
    }

    pub fn write(&self, path: &str, text: &str) {
        let path = self.0.join(path);
        fs::create_dir_all(path.parent().expect("a folder")).expect("a folder");
        fs::write(&path, text).expect("a file");
        fs::set_permissions(path, PermissionsExt::from_mode(0o755)).expect("its mode");
    }

    pub fn remove(&self, path: &str) {
        fs::remove_file(self.0.join(path)).expect("it was there");
    }

    /// Gives a file the time of an hour.
    pub fn date(&self, path: &str, hour: u64) {
        let time = UNIX_EPOCH + Duration::from_secs(3_600 * hour);
        let file = File::open(self.0.join(path)).expect("it is there");
        file.set_modified(time).expect("its time");
    }

    /// All files and folders but the tools.
    fn paths(&self) -> Vec<String> {
        let (mut paths, mut folders) = (Vec::new(), vec![self.0.clone()]);
        while let Some(folder) = folders.pop() {
            for entry in fs::read_dir(folder).expect("a folder") {
                let path = entry.expect("an entry").path();
                if path.is_dir() && !path.ends_with("bin") {
                    folders.push(path.clone());
                }
                let path = path.strip_prefix(&self.0).expect("in the tree");
                paths.push(path.to_str().expect("text").to_string());
            }
        }
        paths.sort();
        paths
    }

    pub fn times(&self) -> Vec<(String, SystemTime)> {
        let time = |path: &String| fs::metadata(self.0.join(path))?.modified();
        let timed = |path: String| (path.clone(), time(&path).expect("its time"));
        self.paths().into_iter().map(timed).collect()
    }

    /// Types `./run list FILE`: what it prints, what it says, its status, and what was called.
    pub fn run(&self, told: &str) -> (String, String, Option<i32>, String) {
        let output = Command::new(self.0.join("run"))
            .args(["list", "one file"])
            .env("PATH", self.0.join("bin"))
            .env("TOLD", told)
            .output()
            .expect("it runs");
        let text = |bytes| String::from_utf8(bytes).expect("text");
        let called = self.0.join("called");
        let calls = fs::read_to_string(&called).unwrap_or_default();
        let _ = fs::remove_file(called);
        let (out, err) = (text(output.stdout), text(output.stderr));
        (out, err, output.status.code(), calls)
    }

    /// The program ran, nothing was said, and these were called.
    pub fn runs(&self, told: &str, program: &str, calls: &str) {
        let (out, err, status, called) = self.run(told);
        assert_eq!((&*called, status), (calls, Some(0)), "{err}");
        assert_eq!(out, format!("{program}: list one file\n"));
        let proving = "run: proving the library, which takes some minutes the first time\n";
        assert_eq!(err, if calls.contains("rt") { proving } else { "" });
    }
}

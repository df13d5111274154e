// Links the archive that `tools/archive benchmark` writes.
use std::path::Path;

fn main() {
    let folder = Path::new(env!("CARGO_MANIFEST_DIR")).join("../../target/staticlib");
    println!("cargo:rerun-if-changed={}", folder.display());
    if !folder.join("libbenchmark.a").exists() {
        panic!("target/staticlib/libbenchmark.a is missing: run `tools/archive benchmark` in the repository's root first");
    }
    println!("cargo:rustc-link-search=native={}", folder.display());
    println!("cargo:rustc-link-lib=static=benchmark");
}

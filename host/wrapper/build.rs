// Links the archive that `tools/archive journal` writes.
use std::path::Path;

fn main() {
    let folder = Path::new(env!("CARGO_MANIFEST_DIR")).join("../../target/staticlib");
    println!("cargo:rerun-if-changed={}", folder.display());
    if !folder.join("libjournal.a").exists() {
        panic!("target/staticlib/libjournal.a is missing: run `tools/archive journal` in the repository's root first");
    }
    println!("cargo:rustc-link-search=native={}", folder.display());
    println!("cargo:rustc-link-lib=static=journal");
}

// Links libharness.a, which `rt lib` in crates/harness proves and writes.
use std::path::Path;

fn main() {
    let folder = Path::new(env!("CARGO_MANIFEST_DIR")).join("../../crates/harness/out");
    let archive = folder.join("libharness.a");
    println!("cargo:rerun-if-changed={}", archive.display());
    if !archive.exists() {
        panic!(
            "{} is missing: run `rt lib` in crates/harness first",
            archive.display()
        );
    }
    println!("cargo:rustc-link-search=native={}", folder.display());
    println!("cargo:rustc-link-lib=static=harness");
}

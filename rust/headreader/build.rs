// Links libheadreader.a, the proved code: from HEADREADER_LIB_DIR if that is set, else from the
// repository's target.
use std::env;
use std::path::{Path, PathBuf};

fn main() {
    println!("cargo::rerun-if-env-changed=HEADREADER_LIB_DIR");
    let folder = folder();
    let archive = folder.join("libheadreader.a");
    println!("cargo::rerun-if-changed={}", archive.display());
    if !archive.exists() {
        println!(
            "cargo::error={} is missing: run ./build in the root of Headreader's repository, or set HEADREADER_LIB_DIR to the folder that has it",
            archive.display()
        );
        return;
    }
    println!("cargo::rustc-link-search=native={}", folder.display());
    println!("cargo::rustc-link-lib=static=headreader");
}

fn folder() -> PathBuf {
    let repository = Path::new(env!("CARGO_MANIFEST_DIR")).join("../../target/staticlib");
    env::var_os("HEADREADER_LIB_DIR").map_or(repository, PathBuf::from)
}

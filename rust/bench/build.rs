// Links target/staticlib/libheadreader.a, which ./build proves and writes, and tells the compiler's version.
use std::path::Path;
use std::process::Command;
use std::{env, str};

fn main() {
    let folder = Path::new(env!("CARGO_MANIFEST_DIR")).join("../../target/staticlib");
    let archive = folder.join("libheadreader.a");
    println!("cargo:rustc-link-search=native={}", folder.display());
    println!("cargo:rerun-if-changed={}", archive.display());
    if !archive.exists() {
        panic!(
            "{} is missing: run ./build in the repository's root first",
            archive.display()
        );
    }
    println!("cargo:rustc-link-lib=static=headreader");
    let rustc = env::var_os("RUSTC").expect("cargo names the compiler");
    let told = Command::new(rustc).arg("--version").output();
    let told = told.expect("the compiler tells its version").stdout;
    let version = str::from_utf8(&told).expect("the version is text").trim();
    println!("cargo:rustc-env=RUSTC_VERSION={version}");
}

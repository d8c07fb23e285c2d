//! Links crates/exports/out/libexports.a of the repository, which `rt lib` in crates/exports writes.

use std::env;
use std::path::PathBuf;

fn main() {
    let folder = PathBuf::from(env::var("CARGO_MANIFEST_DIR").unwrap()).join("../../crates/exports/out");
    let archive = folder.join("libexports.a");
    println!("cargo:rerun-if-changed={}", archive.display());
    assert!(archive.is_file(), "{} is not there: run `rt lib` in crates/exports first", archive.display());
    println!("cargo:rustc-link-search=native={}", folder.display());
    println!("cargo:rustc-link-lib=static=exports");
}

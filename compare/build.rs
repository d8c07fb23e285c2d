//! Brings the Rust of tokie in, without changing a byte of it. `unigram.rs`, `wordpiece.rs` and, of `file.rs`, the one
//! function `text` are copied to the build folder, and a line after each copy includes the code that reads out what is
//! private there (src/beside_unigram.rs and so on). Nothing of the sources stays in the repository.
//!
//! With the feature `port` the compiled port is linked too: crates/exports/out/libexports.a, which `rt lib` in crates/exports
//! writes.
//!
//! The sources are looked for in the folder that TOKIE_SRC names, else in ../shared/docs/src beside the repository.

use std::path::{Path, PathBuf};
use std::{env, fs};

const MODULES: [&str; 3] = ["unigram", "wordpiece", "file"];

fn main() {
    let here = PathBuf::from(env::var("CARGO_MANIFEST_DIR").unwrap());
    let out = PathBuf::from(env::var("OUT_DIR").unwrap());
    println!("cargo:rerun-if-env-changed=TOKIE_SRC");
    let src = match env::var("TOKIE_SRC") {
        Ok(dir) => PathBuf::from(dir),
        Err(_) => here.join("../../shared/docs/src"),
    };
    let src = src.join("crates/tokie/src");

    for module in MODULES {
        let whole = read(&src.join(format!("{module}.rs")));
        let taken = if module == "file" { function_text(&whole) } else { &whole };
        let beside = here.join(format!("src/beside_{module}.rs"));
        println!("cargo:rerun-if-changed={}", beside.display());
        let copy = format!("{taken}\ninclude!({:?});\n", beside.display().to_string());
        fs::write(out.join(format!("{module}.rs")), copy).unwrap();
    }

    // for one benchmark only: the same WordPiece without its wide rows, to tell what share of the time they save
    let whole = read(&src.join("wordpiece.rs"));
    let narrow = whole.replace("const WIDE_AT: usize = 8;", "const WIDE_AT: usize = 1000;");
    assert!(whole != narrow, "wordpiece.rs has the constant WIDE_AT");
    fs::write(out.join("narrow.rs"), narrow).unwrap();

    if env::var("CARGO_FEATURE_PORT").is_ok() {
        let folder = here.join("../crates/exports/out");
        println!("cargo:rerun-if-changed={}", folder.join("libexports.a").display());
        println!("cargo:rustc-link-search=native={}", folder.display());
        println!("cargo:rustc-link-lib=static=exports");
    }

    let declare = |module: &str| {
        let path = out.join(format!("{module}.rs"));
        format!("#[allow(dead_code)]\n#[path = {:?}]\npub mod {module};\n", path.display().to_string())
    };
    fs::write(out.join("modules.rs"), MODULES.map(declare).concat() + &declare("narrow")).unwrap();
}

/// The function `text` of `file.rs`, as it stands there.
fn function_text(file: &str) -> &str {
    let from = file.find("fn text(tab: &[u8], off: u32, len: u32)").expect("file.rs has the function `text`");
    let till = file[from..].find("\n}\n").expect("the function ends") + 3;
    &file[from..from + till]
}

fn read(path: &Path) -> String {
    println!("cargo:rerun-if-changed={}", path.display());
    let hint = "set TOKIE_SRC to the folder that holds crates/tokie/src";
    fs::read_to_string(path).unwrap_or_else(|e| panic!("{}: {e} ({hint})", path.display()))
}

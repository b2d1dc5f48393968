//! Links the static library of the public entries, which `wrapper/archive` has
//! proved and written. `LOTS_LIBRARY` names another directory for it.

use std::env;
use std::path::PathBuf;

fn main() {
    println!("cargo::rerun-if-env-changed=LOTS_LIBRARY");
    let written = || PathBuf::from(env!("CARGO_MANIFEST_DIR")).join("../target/staticlib");
    let directory = env::var_os("LOTS_LIBRARY").map_or_else(written, PathBuf::from);
    let file = directory.join("liblots.a");
    assert!(
        file.is_file(),
        "no {}: `wrapper/archive` writes it",
        file.display()
    );
    println!("cargo::rerun-if-changed={}", file.display());
    println!("cargo::rustc-link-search=native={}", directory.display());
    println!("cargo::rustc-link-lib=static=lots");
}

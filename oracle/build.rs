//! Lays the Rust files under test, unchanged, beside the stand-ins for the
//! modules that were not handed over.
//!
//! The tree is made of copies below `OUT_DIR`, in the build directory, because a
//! file loaded by a `path` attribute looks for its own modules beside itself,
//! while `store.rs` keeps them in `store/`. (Not of links: the toolchain refuses
//! a link anywhere below the repository.) The repository keeps no copy.

use std::env;
use std::fs;
use std::path::{Path, PathBuf};

/// The files under test, below `graph/` of the crate's source. `validate.rs` and
/// `format.rs` are compiled only with the feature `serde`; `store.rs` and
/// `relocate.rs` decide.
const UNDER_TEST: [&str; 14] = [
    "edge_view.rs",
    "store.rs",
    "store/adjacency.rs",
    "store/compact.rs",
    "store/edge.rs",
    "store/id.rs",
    "store/liveness.rs",
    "store/relocate.rs",
    "store/relocate/format.rs",
    "store/relocate/runs.rs",
    "store/renumbering.rs",
    "store/validate.rs",
    "store/view.rs",
    "traverse.rs",
];

/// The harness's own files in that tree: what is laid where.
const BESIDE: [(&str, &str); 4] = [
    ("stand_in/graph.rs", "mod.rs"),
    ("stand_in/view.rs", "view.rs"),
    ("stand_in/traverse_tests.rs", "traverse/tests.rs"),
    ("probe.rs", "store/tests.rs"),
];

fn main() {
    link_port();
    println!("cargo::rerun-if-env-changed=CFGLIB_SRC");
    let manifest = PathBuf::from(env::var_os("CARGO_MANIFEST_DIR").expect("set by cargo"));
    let oracle = manifest
        .ancestors()
        .find(|directory| directory.join("src/stand_in").is_dir())
        .expect("the manifest lies in or below the oracle's directory");
    let source = match env::var_os("CFGLIB_SRC") {
        Some(given) => PathBuf::from(given),
        None => oracle.join("../../shared/docs/src"),
    };
    let under_test = source.join("crates/cfglib/src/graph");
    assert!(
        under_test.join("store.rs").is_file(),
        "no Rust source at {}: set CFGLIB_SRC to the directory that holds crates/cfglib",
        source.display()
    );

    let out = PathBuf::from(env::var_os("OUT_DIR").expect("set by cargo"));
    let tree = out.join("graph");
    if tree.exists() {
        fs::remove_dir_all(&tree).expect("the tree of an earlier build can be removed");
    }
    for file in UNDER_TEST {
        lay(&under_test.join(file), &tree.join(file));
    }
    for (file, place) in BESIDE {
        lay(&oracle.join("src").join(file), &tree.join(place));
    }
    let declaration = format!(
        "#[path = {:?}]\n#[allow(dead_code, unused_imports)]\nmod graph;\n",
        tree.join("mod.rs")
    );
    fs::write(out.join("graph.rs"), declaration).expect("OUT_DIR can be written");
}

/// The proved code: `ORACLE_PORT` names the directory with its static library,
/// which is linked, and `cfg(ported)` is set.
fn link_port() {
    println!("cargo::rustc-check-cfg=cfg(ported)");
    println!("cargo::rerun-if-env-changed=ORACLE_PORT");
    let Some(directory) = env::var_os("ORACLE_PORT").map(PathBuf::from) else {
        return;
    };
    println!("cargo::rustc-link-search=native={}", directory.display());
    let file = directory.join("liblots.a");
    println!("cargo::rerun-if-changed={}", file.display());
    println!("cargo::rustc-link-lib=static=lots");
    println!("cargo::rustc-cfg=ported");
}

fn lay(file: &Path, place: &Path) {
    let file = fs::canonicalize(file)
        .unwrap_or_else(|error| panic!("cannot find {}: {error}", file.display()));
    println!("cargo::rerun-if-changed={}", file.display());
    fs::create_dir_all(place.parent().expect("a file has a directory")).expect("OUT_DIR is ours");
    fs::copy(&file, place).expect("OUT_DIR is ours");
}

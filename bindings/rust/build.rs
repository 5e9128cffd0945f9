//! Finds the proved library, libexports.a: in the repository's crates/exports/out, or in the folder that
//! TREIKWATER_LIBRARY names.

use std::env;
use std::path::{Path, PathBuf};

const PLACE: &str = "TREIKWATER_LIBRARY";

fn folder() -> PathBuf {
    env::var_os(PLACE).map_or_else(
        || Path::new(env!("CARGO_MANIFEST_DIR")).join("../../crates/exports/out"),
        PathBuf::from,
    )
}

fn main() {
    let folder = folder();
    let library = folder.join("libexports.a");
    println!("cargo:rerun-if-env-changed={PLACE}");
    println!("cargo:rerun-if-changed={}", library.display());
    assert!(
        library.exists(),
        "there is no libexports.a: make it by `rt lib` in crates/exports, or set {PLACE} to its folder"
    );
    println!("cargo:rustc-link-search=native={}", folder.display());
    println!("cargo:rustc-link-lib=static=exports");
}

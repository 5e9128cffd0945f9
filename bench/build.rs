//! Finds the proved stages of a slot, libstages.a: in the repository's crates/stages/out, or in the folder that
//! TREIKWATER_STAGES names.

use std::env;
use std::path::{Path, PathBuf};

const PLACE: &str = "TREIKWATER_STAGES";

fn main() {
    let folder = env::var_os(PLACE).map_or_else(
        || Path::new(env!("CARGO_MANIFEST_DIR")).join("../crates/stages/out"),
        PathBuf::from,
    );
    let library = folder.join("libstages.a");
    println!("cargo:rerun-if-env-changed={PLACE}");
    println!("cargo:rerun-if-changed={}", library.display());
    assert!(
        library.exists(),
        "there is no libstages.a: make it by `rt lib` in crates/stages, or set {PLACE} to its folder"
    );
    println!("cargo:rustc-link-search=native={}", folder.display());
    println!("cargo:rustc-link-lib=static=stages");
}

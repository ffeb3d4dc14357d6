//! Links liboverlay.a from the folder in OVERLAY_LIB, or from the repository's target/staticlib.
use std::{env, path::PathBuf};

fn main() {
    let here = PathBuf::from(env::var_os("CARGO_MANIFEST_DIR").expect("cargo sets it"));
    let folder = env::var_os("OVERLAY_LIB").map_or_else(|| here.join("../../target/staticlib"), PathBuf::from);
    let library = folder.join("liboverlay.a");
    if !library.is_file() {
        println!("cargo::error={} is not there: `sh tools/library` writes it", library.display());
    }
    println!("cargo::rerun-if-env-changed=OVERLAY_LIB");
    println!("cargo::rerun-if-changed={}", library.display());
    println!("cargo::rustc-link-search=native={}", folder.display());
    println!("cargo::rustc-link-lib=static=overlay");
}

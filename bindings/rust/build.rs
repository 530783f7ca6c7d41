//! Links the proved library: `libcapi.a` in `../../crates/capi/out`, or in the folder that `TWILLGOOSE_LIBRARY` names.

use std::path::{Path, PathBuf};

fn main() {
    println!("cargo:rerun-if-changed=build.rs");
    println!("cargo:rerun-if-env-changed=TWILLGOOSE_LIBRARY");
    let package = std::env::var("CARGO_MANIFEST_DIR").expect("set by cargo");
    let usual = Path::new(&package).join("../../crates/capi/out");
    let folder = std::env::var_os("TWILLGOOSE_LIBRARY").map_or(usual, PathBuf::from);
    let archive = folder.join("libcapi.a");
    println!("cargo:rerun-if-changed={}", archive.display());
    if !archive.exists() {
        panic!("{} is missing: `rt lib` in crates/capi makes it", archive.display());
    }
    println!("cargo:rustc-link-search=native={}", folder.display());
    println!("cargo:rustc-link-lib=static=capi");
}

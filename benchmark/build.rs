//! Links the proved kernels where the feature `library` asks for them: `libkernels.a` beside the wrapper's `libcapi.a`.
use std::path::{Path, PathBuf};

fn main() {
    println!("cargo:rerun-if-changed=build.rs");
    println!("cargo:rerun-if-env-changed=TWILLGOOSE_LIBRARY");
    if std::env::var_os("CARGO_FEATURE_LIBRARY").is_none() {
        return;
    }
    let package = std::env::var("CARGO_MANIFEST_DIR").expect("set by cargo");
    let usual = Path::new(&package).join("../crates/kernels/out");
    let folder = std::env::var_os("TWILLGOOSE_LIBRARY").map_or(usual, PathBuf::from);
    let archive = folder.join("libkernels.a");
    println!("cargo:rerun-if-changed={}", archive.display());
    if !archive.exists() {
        panic!("{} is missing: `rt lib` in crates/kernels makes it, `benchmark/run` does all", archive.display());
    }
    println!("cargo:rustc-link-search=native={}", folder.display());
    println!("cargo:rustc-link-lib=static=kernels");
}

//! Links the proved library, `../crates/capi/out/libcapi.a`, where the feature `library` asks for it.

use std::path::Path;

fn main() {
    println!("cargo:rerun-if-changed=build.rs");
    if std::env::var_os("CARGO_FEATURE_LIBRARY").is_none() {
        return;
    }
    let package = std::env::var("CARGO_MANIFEST_DIR").expect("set by cargo");
    let folder = Path::new(&package).join("../crates/capi/out");
    let archive = folder.join("libcapi.a");
    println!("cargo:rerun-if-changed={}", archive.display());
    if !archive.exists() {
        panic!("{} is missing: `rt lib` in crates/capi makes it", archive.display());
    }
    println!("cargo:rustc-link-search=native={}", folder.display());
    println!("cargo:rustc-link-lib=static=capi");
}

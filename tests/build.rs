//! Links `librozhinal.a` from the folder that ROZHINAL_LIB_DIR names, and sets
//! `cfg(engine)`. Without the variable only the model is built and tested.

use std::path::PathBuf;

fn main() {
    println!("cargo:rustc-check-cfg=cfg(engine)");
    println!("cargo:rerun-if-env-changed=ROZHINAL_LIB_DIR");
    println!("cargo:rerun-if-changed=build.rs");
    let Some(given) = std::env::var_os("ROZHINAL_LIB_DIR").filter(|d| !d.is_empty()) else {
        return;
    };
    // A relative folder is taken from the folder of this package.
    let folder = PathBuf::from(&given)
        .canonicalize()
        .unwrap_or_else(|e| panic!("ROZHINAL_LIB_DIR={}: {e}", given.to_string_lossy()));
    let archive = folder.join("librozhinal.a");
    assert!(archive.is_file(), "there is no {}", archive.display());
    println!("cargo:rerun-if-changed={}", archive.display());
    println!("cargo:rustc-link-search=native={}", folder.display());
    println!("cargo:rustc-link-lib=static=rozhinal");
    println!("cargo:rustc-cfg=engine");
}

//! Links librathnodi.a: that of crate `rathnodi_c`, or of the folder that RATHNODI_LIB_DIR names.

use std::path::PathBuf;

fn main() {
    println!("cargo:rerun-if-env-changed=RATHNODI_LIB_DIR");
    let folder = match std::env::var_os("RATHNODI_LIB_DIR") {
        Some(folder) => PathBuf::from(folder),
        None => PathBuf::from(env!("CARGO_MANIFEST_DIR")).join("../../target/staticlib"),
    };
    let archive = folder.join("librathnodi.a");
    if !archive.exists() {
        panic!("{} is missing: run `make target/staticlib/librathnodi.a` first", archive.display());
    }
    println!("cargo:rerun-if-changed={}", archive.display());
    println!("cargo:rustc-link-search=native={}", folder.display());
    println!("cargo:rustc-link-lib=static=rathnodi");
}

//! Links the static library that `tools/build exports` writes, from `target/staticlib` of the repository or
//! from the folder that GELLUNKA_LIB names.

use std::path::PathBuf;

fn main() {
    println!("cargo:rerun-if-env-changed=GELLUNKA_LIB");
    let manifest = PathBuf::from(std::env::var_os("CARGO_MANIFEST_DIR").expect("set by cargo"));
    let folder =
        std::env::var_os("GELLUNKA_LIB").map_or_else(|| manifest.join("../target/staticlib"), PathBuf::from);
    let library = folder.join("libexports.a");
    assert!(
        library.exists(),
        "{} is missing: run `tools/build exports` at the repository's root",
        library.display()
    );
    println!("cargo:rerun-if-changed={}", library.display());
    println!("cargo:rustc-link-search=native={}", folder.display());
    println!("cargo:rustc-link-lib=static=exports");
}

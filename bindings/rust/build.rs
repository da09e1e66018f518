//! Links the proved library, which `tools/build library` builds into target/staticlib of the repository.

use std::path::PathBuf;

fn main() {
    let root = PathBuf::from(std::env::var("CARGO_MANIFEST_DIR").unwrap()).join("../..");
    let folder = std::env::var("TORZIMLAK_LIBRARY").map(PathBuf::from).unwrap_or(root.join("target/staticlib"));
    let library = folder.join("libhost.a");
    println!("cargo:rerun-if-env-changed=TORZIMLAK_LIBRARY");
    println!("cargo:rerun-if-changed={}", library.display());
    if !library.exists() {
        println!("cargo:warning={} is missing: run `tools/build library` first", library.display());
    }
    println!("cargo:rustc-link-search=native={}", folder.display());
    println!("cargo:rustc-link-lib=static=host");
}

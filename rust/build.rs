//! Links `libexports.a`, which `tools/archive-here` writes to the repository's `target/staticlib`; `VAULT_ARCHIVE` names another folder.
use std::path::PathBuf;

fn main() {
    println!("cargo:rerun-if-env-changed=VAULT_ARCHIVE");
    let beside =
        PathBuf::from(std::env::var_os("CARGO_MANIFEST_DIR").unwrap()).join("../target/staticlib");
    let folder = std::env::var_os("VAULT_ARCHIVE").map_or(beside, PathBuf::from);
    let archive = folder.join("libexports.a");
    println!("cargo:rerun-if-changed={}", archive.display());
    assert!(
        archive.exists(),
        "{} is missing: `tools/archive-here` writes it",
        archive.display()
    );
    println!("cargo:rustc-link-search=native={}", folder.display());
    println!("cargo:rustc-link-lib=static=exports");
}

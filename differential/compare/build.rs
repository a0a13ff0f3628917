//! Links the static library under test.

use std::{env, path::PathBuf};

fn main() {
    println!("cargo::rerun-if-env-changed=PLANK_LIB");
    let folder = env::var_os("PLANK_LIB").map_or_else(default_folder, PathBuf::from);
    let archive = folder.join("libexports.a");
    assert!(
        archive.exists(),
        "{} is not there; `bindings/library.sh` writes it, PLANK_LIB names its folder",
        archive.display()
    );
    println!("cargo::rerun-if-changed={}", archive.display());
    println!("cargo::rustc-link-search=native={}", folder.display());
    println!("cargo::rustc-link-lib=static=exports");
}

fn default_folder() -> PathBuf {
    PathBuf::from(env::var_os("CARGO_MANIFEST_DIR").unwrap()).join("../../target/staticlib")
}

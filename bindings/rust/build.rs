//! Links the reader's library.

use std::{
    env,
    path::{self, PathBuf},
};

fn main() {
    println!("cargo::rerun-if-env-changed=PLANK_LIB");
    let folder = env::var_os("PLANK_LIB").map_or_else(default_folder, PathBuf::from);
    let folder = path::absolute(folder).expect("a folder's path");
    let archive = folder.join("libexports.a");
    println!("cargo::rerun-if-changed={}", archive.display());
    if !archive.exists() {
        // Checking works without it; linking then fails.
        println!(
            "cargo::warning={} is not there: `bindings/library.sh` in the project's folder \
             writes it, PLANK_LIB names its folder",
            archive.display()
        );
    }
    println!("cargo::rustc-link-search=native={}", folder.display());
    println!("cargo::rustc-link-lib=static=exports");
}

fn default_folder() -> PathBuf {
    PathBuf::from(env::var_os("CARGO_MANIFEST_DIR").unwrap()).join("../../target/staticlib")
}
